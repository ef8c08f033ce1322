//! Mistakes that can be planted into the engine, to see which check finds them.

#[derive(Clone, Copy, PartialEq, Eq)]
pub enum Bug {
    /// The last reader leaves its writer a word that lets new readers in.
    NoMoreReads,
    /// A writer doesn't wait for the only other reader of a version.
    WaitCounter,
    /// A reader of what an undecided transaction wrote doesn't depend on it.
    DirtyRead,
    /// A serializable transaction doesn't lock the buckets that it reads.
    NoBucketLock,
    /// An aborted transaction sets free each version that it wrote, even if another took the lock since.
    AnothersWord,
    /// An insert doesn't look for other inserts of its key.
    TwoInserts,
    /// A snapshot transaction writes over what is latest, even if that was committed after it began.
    LastWriterWins,
}

pub const BUGS: [(&str, Bug); 7] = [
    ("no-more-reads", Bug::NoMoreReads),
    ("wait-counter", Bug::WaitCounter),
    ("dirty-read", Bug::DirtyRead),
    ("no-bucket-lock", Bug::NoBucketLock),
    ("anothers-word", Bug::AnothersWord),
    ("two-inserts", Bug::TwoInserts),
    ("last-writer-wins", Bug::LastWriterWins),
];
