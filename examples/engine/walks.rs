//! What a read or a write does over the versions of a key or of a bucket.

use crate::sight::{Sight, View};
use crate::store::{Engine, State};
use crate::words::{Begin, Lock, TxnId};
use crate::{Bug, Cause, Level, Stop};
use std::sync::atomic::Ordering::SeqCst;

/// How often a walk begins again before its transaction gives up.
const WALKS: u32 = 20_000;

#[derive(Clone, Copy, PartialEq, Eq)]
pub enum Goal {
    Read,
    Write,
}

/// What a walk goes over: the versions of one key, or of a whole bucket.
#[derive(Clone, Copy)]
pub struct Range {
    pub bucket: usize,
    pub key: Option<u64>,
}

impl Engine {
    pub fn range_of(&self, key: u64) -> Range {
        Range { bucket: self.bucket_of(key), key: Some(key) }
    }

    /// The versions that the transaction sees, in order of creation, each locked: all of them to read, the last one to write.
    pub fn walk(&self, txn: TxnId, range: Range, goal: Goal) -> Result<Vec<usize>, Cause> {
        self.lock_bucket(txn, range.bucket);
        for _ in 0..WALKS {
            match self.walk_once(txn, range, goal) {
                Ok(seen) => return Ok(seen),
                Err(Stop::Abort(cause)) => return Err(cause),
                Err(Stop::Again) => std::thread::yield_now(),
            }
        }
        Err(Cause::Asked)
    }

    fn locks_buckets(&self, txn: TxnId) -> bool {
        self.txn(txn).level == Level::Serializable && !self.has(Bug::NoBucketLock)
    }

    fn lock_bucket(&self, txn: TxnId, bucket: usize) {
        let mut held = self.txn(txn).held();
        if self.locks_buckets(txn) && !held.buckets.contains(&bucket) {
            self.buckets[bucket].locks.lock().unwrap().push(txn);
            held.buckets.push(bucket);
        }
    }

    fn view(&self, txn: TxnId, goal: Goal) -> View {
        let at_begin = self.txn(txn).level == Level::Snapshot;
        if at_begin && !(goal == Goal::Write && self.has(Bug::LastWriterWins)) {
            return View { time: self.txn(txn).begin.load(SeqCst), is_now: false };
        }
        View { time: self.clock.load(SeqCst), is_now: true }
    }

    fn walk_once(&self, txn: TxnId, range: Range, goal: Goal) -> Result<Vec<usize>, Stop> {
        let view = self.view(txn, goal);
        let mut seen = Vec::new();
        for index in self.candidates(range, view) {
            match self.sight(txn, self.version(index), view)? {
                Sight::Hidden => {}
                Sight::HiddenIf(other) => self.depend(txn, other)?,
                Sight::HiddenActive(other) => self.make_wait(txn, other)?,
                Sight::Seen(promised) => {
                    if let Some(other) = promised {
                        self.depend(txn, other)?;
                    }
                    if goal == Goal::Read && view.is_now {
                        self.read_lock(txn, index)?;
                    }
                    seen.push(index);
                }
            }
        }
        if let (Goal::Write, Some(last)) = (goal, seen.last()) {
            self.write_lock(txn, *last)?;
        }
        Ok(seen)
    }

    /// The versions that may be seen, in order of creation. No version of a key is seen that is older than one which began
    /// by the time of the view.
    fn candidates(&self, range: Range, view: View) -> Vec<usize> {
        let mut found = Vec::new();
        for index in self.buckets[range.bucket].versions.read().unwrap().iter().rev() {
            let version = self.version(*index);
            if range.key.is_some_and(|key| key != version.key) {
                continue;
            }
            let begin = version.made_by();
            if version.end.load(SeqCst) > view.time {
                found.push(*index);
            }
            if range.key.is_some() && matches!(begin, Begin::At(time) if time <= view.time) {
                break;
            }
        }
        found.reverse();
        found
    }

    /// The transaction trusts another one, which is Preparing, to commit.
    fn depend(&self, txn: TxnId, other: TxnId) -> Result<(), Stop> {
        if self.has(Bug::DirtyRead) {
            return Ok(());
        }
        let mut dependents = self.txn(other).dependents();
        if dependents.is_closed {
            return Err(Stop::Again);
        }
        if !dependents.ids.contains(&txn) {
            dependents.ids.push(txn);
            self.txn(txn).commit_waits.fetch_add(1, SeqCst);
        }
        Ok(())
    }

    /// The maker of a version that a serializable transaction doesn't see yet waits for that transaction.
    fn make_wait(&self, txn: TxnId, maker: TxnId) -> Result<(), Stop> {
        if !self.locks_buckets(txn) {
            return Ok(());
        }
        let mut waiting = self.txn(txn).waiting();
        if waiting.contains(&maker) {
            return Ok(());
        }
        if self.txn(maker).waits.add() {
            waiting.push(maker);
            return Ok(());
        }
        let is_active = self.txn(maker).state() == State::Active;
        Err(if is_active { Stop::Abort(Cause::NoMoreWaits) } else { Stop::Again })
    }

    /// Whether another inserts the key, or, of a snapshot transaction, has inserted it since this one began.
    pub fn is_claimed(&self, txn: TxnId, range: Range) -> bool {
        let versions = self.buckets[range.bucket].versions.read().unwrap();
        let of_key = versions.iter().map(|index| self.version(*index)).filter(|it| Some(it.key) == range.key);
        of_key.into_iter().any(|version| self.is_claim(txn, version.made_by()))
    }

    fn is_claim(&self, txn: TxnId, begin: Begin) -> bool {
        let since = |time| self.txn(txn).level == Level::Snapshot && time > self.txn(txn).begin.load(SeqCst);
        match begin {
            Begin::At(crate::words::INFINITY) => false,
            Begin::At(time) => since(time),
            Begin::By(maker) if maker == txn => false,
            Begin::By(maker) => match self.txn(maker).state() {
                State::Active => true,
                State::Preparing | State::Committed => since(self.txn(maker).end()),
                _ => false,
            },
        }
    }

    /// A new version makes its transaction wait for all others that lock its bucket.
    pub fn write_version(&self, txn: TxnId, key: u64, value: u64) {
        let index = self.add_version(key, value, Begin::By(txn));
        self.txn(txn).held().writes.push(crate::store::Entry::Begin(index));
        let locks = self.buckets[self.bucket_of(key)].locks.lock().unwrap();
        for holder in locks.iter().filter(|it| **it != txn) {
            let mut waiting = self.txn(*holder).waiting();
            if !waiting.contains(&txn) {
                waiting.push(txn);
                self.txn(txn).waits.add();
            }
        }
    }

    /// Whether the transaction read-locks a version that the other one writes over.
    pub fn reads_under(&self, txn: TxnId, writer: TxnId) -> bool {
        let held = self.txn(txn).held();
        let writer_of = |index: &usize| self.version(*index).lock().and_then(|Lock { writer, .. }| writer);
        held.read_locks.iter().any(|index| writer_of(index) == Some(writer))
    }
}
