//! The two words of a version, each packed into 64 bits that threads change by compare-and-swap.

pub type TxnId = u64;
pub type Time = u64;

/// The time that never comes: the greatest that a word can hold.
pub const INFINITY: Time = (1 << 63) - 1;
/// The greatest ReadLockCount.
pub const MOST_READERS: u64 = 255;

/// Bit 63: a Begin word names a transaction, an End word is a lock.
const TOP: u64 = 1 << 63;
/// Bit 62 of a lock: NoMoreReadLocks.
const FLAG: u64 = 1 << 62;
/// The unit of ReadLockCount, bits 54 to 61 of a lock.
const READER: u64 = 1 << 54;
/// WriteLock without a writer: bits 0 to 53 all set.
const NO_WRITER: u64 = READER - 1;

/// A Begin word: from when a version is valid, or which transaction made it.
#[derive(Clone, Copy, PartialEq, Eq)]
pub enum Begin {
    At(Time),
    By(TxnId),
}

impl Begin {
    pub fn read(word: u64) -> Begin {
        if word & TOP == 0 {
            Begin::At(word)
        } else {
            Begin::By(word & NO_WRITER)
        }
    }

    pub fn word(self) -> u64 {
        match self {
            Begin::At(time) => time,
            Begin::By(txn) => TOP | txn,
        }
    }
}

/// An End word as a lock. The latest version, while nobody holds it, is a lock without readers and writer: its word is
/// infinity.
#[derive(Clone, Copy, PartialEq, Eq)]
pub struct Lock {
    pub readers: u64,
    pub writer: Option<TxnId>,
    pub no_more_reads: bool,
}

impl Lock {
    /// The lock in an End word; None if the word is the time at which the version ended.
    pub fn read(word: u64) -> Option<Lock> {
        if word == INFINITY {
            return Some(Lock { readers: 0, writer: None, no_more_reads: false });
        }
        (word & TOP != 0).then(|| Lock {
            readers: (word / READER) & MOST_READERS,
            writer: Some(word & NO_WRITER).filter(|writer| *writer != NO_WRITER),
            no_more_reads: word & FLAG != 0,
        })
    }

    pub fn word(self) -> u64 {
        if self.readers == 0 && self.writer.is_none() {
            return INFINITY;
        }
        let flag = if self.no_more_reads { FLAG } else { 0 };
        TOP | flag | self.readers * READER | self.writer.unwrap_or(NO_WRITER)
    }

    /// The lock without its writer. NoMoreReadLocks goes with the writer.
    pub fn cleared(self) -> Lock {
        Lock { writer: None, no_more_reads: false, ..self }
    }
}
