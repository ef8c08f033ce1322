//! The events of a transaction. An event that answers Err has aborted its transaction.

use crate::store::{Engine, Entry, State};
use crate::walks::{Goal, Range};
use crate::words::{Time, TxnId};
use crate::{Bug, Cause};
use std::collections::BTreeMap;
use std::fmt::{self, Display, Formatter};
use std::sync::atomic::Ordering::SeqCst;

/// What a release gave back.
pub enum Released {
    ReadLock(usize, Option<TxnId>),
    Bucket(usize),
    Waiter(TxnId),
}

impl Display for Released {
    fn fmt(&self, f: &mut Formatter<'_>) -> fmt::Result {
        match self {
            Released::ReadLock(index, None) => write!(f, "released read {index}"),
            Released::ReadLock(index, Some(writer)) => write!(f, "released read {index} writer {writer}"),
            Released::Bucket(bucket) => write!(f, "released bucket {bucket}"),
            Released::Waiter(txn) => write!(f, "released waiter {txn}"),
        }
    }
}

/// Which word a stamp settled.
pub enum Stamped {
    Begin(usize),
    End(usize),
    /// Another has cleared the word before: it stays as it is.
    Left(usize),
}

impl Display for Stamped {
    fn fmt(&self, f: &mut Formatter<'_>) -> fmt::Result {
        match self {
            Stamped::Begin(index) => write!(f, "stamped begin {index}"),
            Stamped::End(index) => write!(f, "stamped end {index}"),
            Stamped::Left(index) => write!(f, "left {index}"),
        }
    }
}

/// An event that may have to be asked again.
pub enum Asked<T> {
    Done(T),
    Waiting(u64),
}

impl Engine {
    pub fn begin(&self, txn: TxnId) -> Time {
        let time = self.clock.fetch_add(1, SeqCst);
        self.txn(txn).begin.store(time, SeqCst);
        self.txn(txn).set_state(State::Active);
        time
    }

    pub fn abort(&self, txn: TxnId, cause: Cause) -> Cause {
        self.txn(txn).set_state(State::Aborted(cause));
        let mut dependents = self.txn(txn).dependents();
        dependents.is_closed = true;
        for other in dependents.ids.drain(..) {
            self.txn(other).set_doom(Cause::Cascade);
            self.txn(other).commit_waits.fetch_sub(1, SeqCst);
        }
        cause
    }

    /// A live transaction that is doomed aborts at its next event.
    pub fn not_doomed(&self, txn: TxnId) -> Result<(), Cause> {
        match self.txn(txn).doom().filter(|_| self.txn(txn).is_live()) {
            None => Ok(()),
            Some(cause) => Err(self.abort(txn, cause)),
        }
    }

    fn walked(&self, txn: TxnId, range: Range, goal: Goal) -> Result<Vec<usize>, Cause> {
        self.not_doomed(txn)?;
        self.walk(txn, range, goal).map_err(|cause| self.abort(txn, cause))
    }

    pub fn read(&self, txn: TxnId, key: u64) -> Result<Option<u64>, Cause> {
        let seen = self.walked(txn, self.range_of(key), Goal::Read)?;
        Ok(seen.last().map(|index| self.version(*index).value))
    }

    /// The rows of a bucket, by key.
    pub fn scan(&self, txn: TxnId, bucket: usize) -> Result<BTreeMap<u64, u64>, Cause> {
        let seen = self.walked(txn, Range { bucket, key: None }, Goal::Read)?;
        Ok(seen.iter().map(|index| self.version(*index)).map(|it| (it.key, it.value)).collect())
    }

    /// False if the key is there already.
    pub fn insert(&self, txn: TxnId, key: u64, value: u64) -> Result<bool, Cause> {
        let range = self.range_of(key);
        let _alone = self.buckets[range.bucket].inserts.lock().unwrap();
        // Before the walk: a claim that goes while the walk is under way is seen by it, if it was committed.
        let claimed = self.is_claimed(txn, range);
        if !self.walked(txn, range, Goal::Read)?.is_empty() {
            return Ok(false);
        }
        if (claimed || self.is_claimed(txn, range)) && !self.has(Bug::TwoInserts) {
            return Err(self.abort(txn, Cause::Conflict));
        }
        self.write_version(txn, key, value);
        Ok(true)
    }

    /// An update to a value, or a deletion; false if the key isn't there.
    pub fn write(&self, txn: TxnId, key: u64, value: Option<u64>) -> Result<bool, Cause> {
        if self.walked(txn, self.range_of(key), Goal::Write)?.is_empty() {
            return Ok(false);
        }
        if let Some(value) = value {
            self.write_version(txn, key, value);
        }
        Ok(true)
    }

    /// From now on nobody may make the transaction wait for more.
    pub fn finish(&self, txn: TxnId) -> Result<(), Cause> {
        self.not_doomed(txn)?;
        self.txn(txn).waits.finish();
        Ok(())
    }

    pub fn precommit(&self, txn: TxnId) -> Result<Asked<Time>, Cause> {
        self.not_doomed(txn)?;
        match self.txn(txn).waits.count() {
            0 => {}
            count => return Ok(Asked::Waiting(count)),
        }
        // The state comes before the time: a reader that draws a later time finds a Preparing transaction.
        self.txn(txn).set_state(State::Preparing);
        let time = self.clock.fetch_add(1, SeqCst);
        self.txn(txn).set_end(time);
        Ok(Asked::Done(time))
    }

    /// Gives back one read lock, otherwise one bucket, otherwise one transaction that waits; None if nothing is left.
    pub fn release(&self, txn: TxnId) -> Option<Released> {
        let it = self.txn(txn);
        let mut held = it.held();
        if !held.read_locks.is_empty() {
            let index = held.read_locks.remove(0);
            return Some(Released::ReadLock(index, self.drop_read_lock(txn, index)));
        }
        if !held.buckets.is_empty() {
            let bucket = held.buckets.remove(0);
            self.buckets[bucket].locks.lock().unwrap().retain(|holder| *holder != txn);
            return Some(Released::Bucket(bucket));
        }
        let mut waiting = it.waiting();
        (!waiting.is_empty()).then(|| {
            let other = waiting.remove(0);
            self.txn(other).waits.take_one();
            Released::Waiter(other)
        })
    }

    pub fn commit(&self, txn: TxnId) -> Result<Asked<()>, Cause> {
        self.not_doomed(txn)?;
        match self.txn(txn).commit_waits.load(SeqCst) {
            0 => {}
            count => return Ok(Asked::Waiting(count)),
        }
        // Another may have aborted between the two looks: it sets AbortNow before it lowers the counter.
        self.not_doomed(txn)?;
        self.txn(txn).set_state(State::Committed);
        let mut dependents = self.txn(txn).dependents();
        dependents.is_closed = true;
        for other in dependents.ids.drain(..) {
            self.txn(other).commit_waits.fetch_sub(1, SeqCst);
        }
        Ok(Asked::Done(()))
    }

    /// Settles one word of the write set; None if none is left.
    pub fn stamp(&self, txn: TxnId) -> Option<Stamped> {
        let entry = {
            let mut held = self.txn(txn).held();
            (!held.writes.is_empty()).then(|| held.writes.remove(0))
        }?;
        let settled = if self.txn(txn).state() == State::Committed {
            self.stamp_committed(txn, entry);
            true
        } else {
            self.stamp_aborted(txn, entry)
        };
        Some(match entry {
            Entry::Begin(index) => Stamped::Begin(index),
            Entry::End(index) if settled => Stamped::End(index),
            Entry::End(index) => Stamped::Left(index),
        })
    }

    pub fn end(&self, txn: TxnId) {
        self.txn(txn).set_state(State::Terminated);
    }
}
