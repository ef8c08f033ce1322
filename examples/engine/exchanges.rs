//! Each exchange of a word: it is made, held against the proved library where that was linked, and written to a file where
//! one was asked for.

use crate::store::Version;
use crate::words::TxnId;
use std::fs::File;
use std::io::{self, BufWriter, Write};
use std::sync::atomic::{AtomicU64, Ordering::SeqCst};
use std::sync::Mutex;

#[cfg(hek)]
#[path = "../../crates/hek_c/include/hek.rs"]
mod hek;

#[derive(Clone, Copy, PartialEq, Eq)]
pub enum Side {
    Begin,
    End,
}

impl Side {
    fn name(self) -> &'static str {
        ["begin", "end"][self as usize]
    }
}

#[derive(Default)]
pub struct Exchanges {
    file: Option<Mutex<BufWriter<File>>>,
    unlawful: AtomicU64,
}

impl Exchanges {
    /// Writes each exchange to the file, if there is one. An exchange and its line are then made under one lock, so that
    /// the lines are in the order of the exchanges.
    pub fn new(path: Option<&str>) -> io::Result<Exchanges> {
        let file = path.map(File::create).transpose()?;
        Ok(Exchanges { file: file.map(|it| Mutex::new(BufWriter::new(it))), unlawful: AtomicU64::new(0) })
    }

    /// Puts `new` in place of `old`; false, and nothing is changed, if the word is another by now.
    pub fn exchange(&self, at: (usize, &Version), side: Side, old: u64, new: u64, txn: TxnId) -> bool {
        let word = match side {
            Side::Begin => &at.1.begin,
            Side::End => &at.1.end,
        };
        let mut file = self.file.as_ref().map(|it| it.lock().unwrap());
        let done = word.compare_exchange(old, new, SeqCst, SeqCst).is_ok();
        if done {
            self.check(side, old, new, txn);
            if let Some(file) = &mut file {
                let (side, index) = (side.name(), at.0);
                writeln!(file, "{side}-{index} {old:016X} {new:016X} {txn}").expect("the file can be written");
            }
        }
        done
    }

    /// How many exchanges the library knew no rule for.
    pub fn unlawful(&self) -> u64 {
        self.unlawful.load(SeqCst)
    }

    pub fn flush(&self) -> io::Result<()> {
        self.file.as_ref().map_or(Ok(()), |file| file.lock().unwrap().flush())
    }

    #[cfg(hek)]
    fn check(&self, side: Side, old: u64, new: u64, txn: TxnId) {
        let change = match side {
            Side::Begin => hek::hek_begin_change(old, new, txn),
            Side::End => hek::hek_end_change(old, new, txn),
        };
        if change == hek::NO_CHANGE && self.unlawful.fetch_add(1, SeqCst) < 3 {
            eprintln!("engine: no rule leads from {} word {old:016X} to {new:016X} by {txn}", side.name());
        }
    }

    #[cfg(not(hek))]
    fn check(&self, _: Side, _: u64, _: u64, _: TxnId) {}
}
