//! The functions of `hek.h` for an engine in Rust, 1.82 or later: `mod hek;`, and `-L FOLDER` with the folder of libhek_c.a.
//! `hek.h` says what each answers.
#![allow(dead_code)]

pub const NO_TIME: u64 = u64::MAX;
pub const NO_CHANGE: u32 = 0;

#[repr(C)]
pub struct HekRelease {
    pub word: u64,
    pub waits: u64,
    pub status: u32,
}

pub const SLOTS: usize = 126;

#[repr(C)]
#[derive(Clone)]
pub struct HekWord {
    pub last: u64,
    pub noted: u32,
    pub reads: u32,
    pub readers: [u64; SLOTS],
}

impl HekWord {
    /// A word of which no exchange is noted.
    pub const NEW: HekWord = HekWord { last: 0, noted: 0, reads: 0, readers: [0; SLOTS] };
}

#[repr(C)]
pub struct HekNoted {
    pub wanted: u64,
    pub fault: u32,
    pub change: u32,
}

#[link(name = "hek_c", kind = "static")]
unsafe extern "C" {
    pub safe fn hek_is_begin(number: u64) -> bool;
    pub safe fn hek_begin_time(number: u64) -> u64;
    pub safe fn hek_begin_txn(number: u64) -> u64;
    pub safe fn hek_is_end(number: u64) -> bool;
    pub safe fn hek_end_time(number: u64) -> u64;
    pub safe fn hek_readers(number: u64) -> u64;
    pub safe fn hek_writer(number: u64) -> u64;
    pub safe fn hek_no_more_reads(number: u64) -> bool;
    pub safe fn hek_infinity() -> u64;
    pub safe fn hek_add_reader(number: u64) -> u64;
    pub safe fn hek_drop_reader(number: u64) -> u64;
    pub safe fn hek_take_writer(number: u64, txn: u64) -> u64;
    pub safe fn hek_clear_writer(number: u64) -> u64;
    pub safe fn hek_release(number: u64, waits: u64) -> HekRelease;
    pub safe fn hek_begin_change(old: u64, new: u64, txn: u64) -> u32;
    pub safe fn hek_end_change(old: u64, new: u64, txn: u64) -> u32;
    /// `over` has `txns` bytes.
    pub fn hek_note(word: *mut HekWord, txn: u64, old: u64, new: u64, over: *const u8, txns: usize) -> HekNoted;
    pub fn hek_leaked(word: *const HekWord, over: *const u8, txns: usize) -> u64;
}
