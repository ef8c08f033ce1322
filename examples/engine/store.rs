//! What the threads share: versions, transactions and buckets.

use crate::exchanges::Exchanges;
use crate::words::{Begin, Lock, Time, TxnId, INFINITY};
use crate::{Bug, Cause, Level};
use std::sync::atomic::{AtomicU64, AtomicU8, AtomicUsize, Ordering::SeqCst};
use std::sync::{Mutex, MutexGuard, OnceLock, RwLock};

/// A version of a row. Key and value never change, the words do.
pub struct Version {
    pub key: u64,
    pub value: u64,
    pub begin: AtomicU64,
    pub end: AtomicU64,
}

impl Version {
    pub fn made_by(&self) -> Begin {
        Begin::read(self.begin.load(SeqCst))
    }

    pub fn lock(&self) -> Option<Lock> {
        Lock::read(self.end.load(SeqCst))
    }
}

#[derive(Clone, Copy, PartialEq, Eq)]
pub enum State {
    NotBegun,
    Active,
    Preparing,
    Committed,
    Aborted(Cause),
    Terminated,
}

impl State {
    fn number(self) -> u8 {
        match self {
            State::NotBegun => 0,
            State::Active => 1,
            State::Preparing => 2,
            State::Committed => 3,
            State::Terminated => 4,
            State::Aborted(cause) => 5 + cause as u8,
        }
    }

    fn read(number: u8) -> State {
        match number {
            0 => State::NotBegun,
            1 => State::Active,
            2 => State::Preparing,
            3 => State::Committed,
            4 => State::Terminated,
            aborted => State::Aborted(Cause::ALL[usize::from(aborted - 5)]),
        }
    }
}

/// WaitForCounter and NoMoreWaitFors in one number, so that both change at once.
pub struct WaitCounter(AtomicU64);

impl WaitCounter {
    const FINISHED: u64 = 1 << 63;

    pub fn count(&self) -> u64 {
        self.0.load(SeqCst) & !WaitCounter::FINISHED
    }

    pub fn is_finished(&self) -> bool {
        self.0.load(SeqCst) & WaitCounter::FINISHED != 0
    }

    /// Sets NoMoreWaitFors.
    pub fn finish(&self) {
        self.0.fetch_or(WaitCounter::FINISHED, SeqCst);
    }

    /// Another wait; false if the transaction takes no more.
    pub fn add(&self) -> bool {
        let more = |count| (count & WaitCounter::FINISHED == 0).then_some(count + 1);
        self.0.fetch_update(SeqCst, SeqCst, more).is_ok()
    }

    pub fn take_one(&self) {
        let less = |count| (count & !WaitCounter::FINISHED > 0).then(|| count - 1);
        let _ = self.0.fetch_update(SeqCst, SeqCst, less);
    }
}

#[derive(Clone, Copy, PartialEq, Eq)]
pub enum Entry {
    Begin(usize),
    End(usize),
}

/// What a transaction holds: versions and buckets by index.
#[derive(Default)]
pub struct Held {
    pub read_locks: Vec<usize>,
    pub writes: Vec<Entry>,
    pub buckets: Vec<usize>,
}

/// CommitDepSet; closed once its transaction has committed or aborted.
#[derive(Default)]
pub struct Dependents {
    pub is_closed: bool,
    pub ids: Vec<TxnId>,
}

pub struct Transaction {
    pub level: Level,
    state: AtomicU8,
    pub begin: AtomicU64,
    end: AtomicU64,
    pub waits: WaitCounter,
    pub commit_waits: AtomicU64,
    doom: AtomicU8,
    held: Mutex<Held>,
    waiting: Mutex<Vec<TxnId>>,
    dependents: Mutex<Dependents>,
}

impl Transaction {
    fn new(level: Level) -> Transaction {
        Transaction {
            level,
            state: AtomicU8::new(0),
            begin: AtomicU64::new(0),
            end: AtomicU64::new(0),
            waits: WaitCounter(AtomicU64::new(0)),
            commit_waits: AtomicU64::new(0),
            doom: AtomicU8::new(0),
            held: Mutex::default(),
            waiting: Mutex::default(),
            dependents: Mutex::default(),
        }
    }

    pub fn state(&self) -> State {
        State::read(self.state.load(SeqCst))
    }

    pub fn set_state(&self, state: State) {
        self.state.store(state.number(), SeqCst);
    }

    pub fn is_live(&self) -> bool {
        matches!(self.state(), State::Active | State::Preparing)
    }

    pub fn set_end(&self, time: Time) {
        self.end.store(time, SeqCst);
    }

    /// The end time, 0 until it is drawn.
    pub fn drawn_end(&self) -> Time {
        self.end.load(SeqCst)
    }

    /// The end time of a transaction that is Preparing or Committed. It is drawn right after the state is set.
    pub fn end(&self) -> Time {
        loop {
            match self.drawn_end() {
                0 => std::hint::spin_loop(),
                time => return time,
            }
        }
    }

    /// Why the transaction must abort at its next event, if it must: AbortNow, or it is the victim of a deadlock.
    pub fn doom(&self) -> Option<Cause> {
        match self.doom.load(SeqCst) {
            0 => None,
            number => Some(Cause::ALL[usize::from(number - 1)]),
        }
    }

    pub fn set_doom(&self, cause: Cause) {
        self.doom.fetch_max(1 + cause as u8, SeqCst);
    }

    pub fn held(&self) -> MutexGuard<'_, Held> {
        self.held.lock().unwrap()
    }

    /// WaitingTxnList: who waits for this transaction because of a bucket.
    pub fn waiting(&self) -> MutexGuard<'_, Vec<TxnId>> {
        self.waiting.lock().unwrap()
    }

    pub fn dependents(&self) -> MutexGuard<'_, Dependents> {
        self.dependents.lock().unwrap()
    }
}

/// The versions of all keys with the same remainder, in order of creation, and who locks the bucket.
#[derive(Default)]
pub struct Bucket {
    pub versions: RwLock<Vec<usize>>,
    pub locks: Mutex<Vec<TxnId>>,
    /// Held by an insert, from its look at other inserts of the key until its version is there.
    pub inserts: Mutex<()>,
}

pub struct Engine {
    pub bug: Option<Bug>,
    pub exchanges: Exchanges,
    pub clock: AtomicU64,
    pub buckets: Vec<Bucket>,
    versions: Vec<OnceLock<Version>>,
    made: AtomicUsize,
    transactions: Vec<Transaction>,
}

/// What an engine begins with.
pub struct Opening {
    pub buckets: usize,
    pub rows: Vec<(u64, u64)>,
    pub levels: Vec<Level>,
    /// How many versions there is room for, beside those of the rows.
    pub room: usize,
}

impl Engine {
    pub fn new(opening: &Opening, bug: Option<Bug>, exchanges: Exchanges) -> Engine {
        let engine = Engine {
            bug,
            exchanges,
            clock: AtomicU64::new(1),
            buckets: (0..opening.buckets).map(|_| Bucket::default()).collect(),
            versions: (0..opening.rows.len() + opening.room).map(|_| OnceLock::new()).collect(),
            made: AtomicUsize::new(0),
            transactions: opening.levels.iter().map(|level| Transaction::new(*level)).collect(),
        };
        for (key, value) in &opening.rows {
            engine.add_version(*key, *value, Begin::At(0));
        }
        engine
    }

    pub fn has(&self, bug: Bug) -> bool {
        self.bug == Some(bug)
    }

    pub fn bucket_of(&self, key: u64) -> usize {
        (key % self.buckets.len() as u64) as usize
    }

    /// The transaction with this ID, from 1.
    pub fn txn(&self, txn: TxnId) -> &Transaction {
        &self.transactions[txn as usize - 1]
    }

    pub fn ids(&self) -> std::ops::RangeInclusive<TxnId> {
        1..=self.transactions.len() as TxnId
    }

    pub fn version(&self, index: usize) -> &Version {
        self.versions[index].get().expect("an index is given away once its version is there")
    }

    pub fn version_count(&self) -> usize {
        self.made.load(SeqCst)
    }

    /// A new version, the last of its bucket, that nobody holds.
    pub fn add_version(&self, key: u64, value: u64, begin: Begin) -> usize {
        let version = Version { key, value, begin: AtomicU64::new(begin.word()), end: AtomicU64::new(INFINITY) };
        let mut bucket = self.buckets[self.bucket_of(key)].versions.write().unwrap();
        let index = self.made.fetch_add(1, SeqCst);
        assert!(self.versions[index].set(version).is_ok());
        bucket.push(index);
        index
    }
}
