//! Read locks and write locks of versions. Each change is one exchange of an End word.

use crate::exchanges::Side;
use crate::store::{Engine, Entry, State};
use crate::words::{Begin, Lock, TxnId, MOST_READERS};
use crate::{Bug, Cause, Stop};
use std::sync::atomic::Ordering::SeqCst;

impl Engine {
    /// One exchange of an End word; false if it is another by now.
    fn relock(&self, index: usize, old: Lock, new: Lock, txn: TxnId) -> bool {
        self.exchanges.exchange((index, self.version(index)), Side::End, old.word(), new.word(), txn)
    }

    /// A read lock of a version that the transaction sees. It needs none of a version that it made itself, or holds.
    pub fn read_lock(&self, txn: TxnId, index: usize) -> Result<(), Stop> {
        if self.version(index).made_by() == Begin::By(txn) || self.txn(txn).held().read_locks.contains(&index) {
            return Ok(());
        }
        while !self.try_read_lock(txn, index)? {}
        self.txn(txn).held().read_locks.push(index);
        Ok(())
    }

    fn try_read_lock(&self, txn: TxnId, index: usize) -> Result<bool, Stop> {
        let lock = self.version(index).lock().ok_or(Stop::Again)?;
        let more = Lock { readers: lock.readers + 1, ..lock };
        let state = lock.writer.map(|writer| self.txn(writer).state());
        if state == Some(State::Active) && lock.no_more_reads {
            return Err(Stop::Abort(Cause::NoMoreReads));
        }
        if lock.readers == MOST_READERS {
            return Err(Stop::Abort(Cause::ReadersFull));
        }
        match (lock.writer, state) {
            (Some(writer), Some(State::Aborted(_))) => {
                let done = self.relock(index, lock, more.cleared(), txn);
                if done {
                    self.cleared(writer, lock);
                }
                Ok(done)
            }
            (Some(writer), Some(State::Active)) if lock.readers == 0 => self.first_reader(txn, index, lock, writer),
            (None, _) | (_, Some(State::Active)) => Ok(self.relock(index, lock, more, txn)),
            _ => Err(Stop::Again),
        }
    }

    /// The first reader under an Active writer makes the writer wait, or may not come if the writer takes no more waits.
    fn first_reader(&self, txn: TxnId, index: usize, lock: Lock, writer: TxnId) -> Result<bool, Stop> {
        if !self.txn(writer).waits.add() {
            let is_active = self.txn(writer).state() == State::Active;
            return Err(if is_active { Stop::Abort(Cause::NoMoreWaits) } else { Stop::Again });
        }
        let done = self.relock(index, lock, Lock { readers: 1, ..lock }, txn);
        if !done {
            self.txn(writer).waits.take_one();
        }
        Ok(done)
    }

    /// An aborted writer's name was taken out of a lock: it waits for that lock's readers no longer.
    fn cleared(&self, writer: TxnId, lock: Lock) {
        if lock.readers > 0 {
            self.txn(writer).waits.take_one();
        }
    }

    /// Gives a read lock back. The answer is the writer that waited for this reader alone.
    pub fn drop_read_lock(&self, txn: TxnId, index: usize) -> Option<TxnId> {
        loop {
            // Only an engine with a mistake finds no reader here.
            let lock = self.version(index).lock().filter(|lock| lock.readers > 0)?;
            let last_under = lock.writer.filter(|_| lock.readers == 1);
            let sealed = last_under.is_some() && !self.has(Bug::NoMoreReads);
            let less = Lock { readers: lock.readers - 1, no_more_reads: sealed, ..lock };
            if self.relock(index, lock, less, txn) {
                if let Some(writer) = last_under {
                    self.txn(writer).waits.take_one();
                }
                return last_under;
            }
        }
    }

    /// The write lock of the version that is to be written over. The transaction gives up its own read lock.
    pub fn write_lock(&self, txn: TxnId, index: usize) -> Result<(), Stop> {
        let own = self.txn(txn).held().read_locks.contains(&index);
        while !self.try_write_lock(txn, index, own)? {}
        let mut held = self.txn(txn).held();
        held.read_locks.retain(|it| *it != index);
        held.writes.push(Entry::End(index));
        Ok(())
    }

    fn try_write_lock(&self, txn: TxnId, index: usize, own: bool) -> Result<bool, Stop> {
        let lock = self.version(index).lock().ok_or(Stop::Abort(Cause::Conflict))?;
        match lock.writer.map(|writer| self.txn(writer).state()) {
            None | Some(State::Aborted(_)) => {}
            Some(State::Terminated) => return Err(Stop::Again),
            Some(_) => return Err(Stop::Abort(Cause::Conflict)),
        }
        let others = lock.readers.saturating_sub(u64::from(own));
        let fewest = if self.has(Bug::WaitCounter) { 2 } else { 1 };
        let must_wait = others >= fewest;
        if must_wait {
            self.txn(txn).waits.add();
        }
        let done = self.relock(index, lock, Lock { readers: others, writer: Some(txn), no_more_reads: false }, txn);
        match lock.writer {
            Some(writer) if done => self.cleared(writer, lock),
            _ if must_wait && !done => self.txn(txn).waits.take_one(),
            _ => {}
        }
        Ok(done)
    }

    /// The word of a version that a transaction wrote over or made is its end time.
    pub fn stamp_committed(&self, txn: TxnId, entry: Entry) {
        let time = self.txn(txn).end();
        match entry {
            Entry::Begin(index) => self.replace(index, Side::Begin, time, txn),
            Entry::End(index) => self.replace(index, Side::End, time, txn),
        }
    }

    /// A version that an aborted transaction made never begins. One that it wrote over is free of it; false if another
    /// has cleared it since.
    pub fn stamp_aborted(&self, txn: TxnId, entry: Entry) -> bool {
        match entry {
            Entry::Begin(index) => self.replace(index, Side::Begin, crate::words::INFINITY, txn),
            Entry::End(index) if self.has(Bug::AnothersWord) => {
                self.replace(index, Side::End, crate::words::INFINITY, txn)
            }
            Entry::End(index) => return self.give_back(txn, index),
        }
        true
    }

    fn give_back(&self, txn: TxnId, index: usize) -> bool {
        loop {
            let lock = self.version(index).lock().filter(|lock| lock.writer == Some(txn));
            let Some(lock) = lock else {
                return false;
            };
            if self.relock(index, lock, lock.cleared(), txn) {
                self.cleared(txn, lock);
                return true;
            }
        }
    }

    fn replace(&self, index: usize, side: Side, new: u64, txn: TxnId) {
        let version = self.version(index);
        let word = if side == Side::Begin { &version.begin } else { &version.end };
        while !self.exchanges.exchange((index, version), side, word.load(SeqCst), new, txn) {}
    }
}
