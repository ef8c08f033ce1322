//! A load: threads that run random transactions, and one that looks for deadlocks.

use crate::events::Asked;
use crate::histories::{self, Operations};
use crate::store::{Engine, Opening};
use crate::words::TxnId;
use crate::{Cause, Level};
use std::collections::BTreeMap;
use std::sync::atomic::{AtomicBool, AtomicU64, Ordering::SeqCst};
use std::sync::Mutex;
use std::thread;
use std::time::Duration;

/// How often a transaction asks again before it gives up.
const TURNS: u32 = 5_000;
/// How many transactions in a thousand fail at the end: the log of their machine is full, say.
const FAILURES: u64 = 20;

pub struct Load {
    pub threads: u64,
    pub txns: u64,
    pub keys: u64,
    pub buckets: u64,
    /// The greatest number of operations of a transaction.
    pub operations: u64,
    pub seed: u64,
    /// None: each transaction has a level at random.
    pub level: Option<Level>,
}

/// What became of a load: how many transactions committed, how many aborted by which cause, and the lines of the history.
#[derive(Default)]
pub struct Outcome {
    pub committed: u64,
    pub aborted: BTreeMap<&'static str, u64>,
    pub lines: Vec<String>,
}

/// Numbers that look random: xorshift.
struct Dice(u64);

impl Dice {
    fn new(seed: u64) -> Dice {
        Dice(seed.wrapping_mul(0x9E37_79B9_7F4A_7C15) | 1)
    }

    /// A number below `sides`.
    fn roll(&mut self, sides: u64) -> u64 {
        self.0 ^= self.0 << 13;
        self.0 ^= self.0 >> 7;
        self.0 ^= self.0 << 17;
        (self.0 >> 11) % sides
    }
}

impl Load {
    /// Every second key has a row.
    pub fn opening(&self) -> Opening {
        let mut dice = Dice::new(self.seed);
        let level = |dice: &mut Dice| self.level.unwrap_or(Level::ALL[dice.roll(3) as usize]);
        Opening {
            buckets: self.buckets as usize,
            rows: (0..self.keys).step_by(2).map(|key| (key, key + 1)).collect(),
            levels: (0..self.txns).map(|_| level(&mut dice)).collect(),
            room: (self.txns * self.operations) as usize,
        }
    }

    pub fn run(&self, engine: &Engine) -> Outcome {
        let outcome = Mutex::new(Outcome::default());
        let running: Vec<AtomicU64> = (0..self.threads).map(|_| AtomicU64::new(0)).collect();
        let (next, is_over) = (AtomicU64::new(1), AtomicBool::new(false));
        thread::scope(|scope| {
            scope.spawn(|| break_deadlocks(engine, &running, &is_over));
            let worker = |number| {
                let (next, running, outcome) = (&next, &running[number as usize], &outcome);
                scope
                    .spawn(move || self.work(engine, Dice::new(self.seed * 1_000 + number + 1), next, running, outcome))
            };
            let workers: Vec<_> = (0..self.threads).map(worker).collect();
            let ends: Vec<_> = workers.into_iter().map(|it| it.join()).collect();
            is_over.store(true, SeqCst);
            ends.into_iter().for_each(|it| it.expect("a thread ends without a panic"));
        });
        outcome.into_inner().unwrap()
    }

    fn work(&self, engine: &Engine, mut dice: Dice, next: &AtomicU64, running: &AtomicU64, outcome: &Mutex<Outcome>) {
        loop {
            let txn = next.fetch_add(1, SeqCst);
            if txn > self.txns {
                return running.store(0, SeqCst);
            }
            running.store(txn, SeqCst);
            let mut operations = Operations::default();
            let ended = self.transaction(engine, txn, &mut dice, &mut operations);
            while engine.release(txn).is_some() {}
            while engine.stamp(txn).is_some() {}
            engine.end(txn);
            let mut outcome = outcome.lock().unwrap();
            match ended {
                Ok(()) => outcome.committed += 1,
                Err(cause) => *outcome.aborted.entry(cause.name()).or_default() += 1,
            }
            outcome.lines.push(histories::line(engine, txn, ended.is_ok(), &operations));
        }
    }

    fn transaction(
        &self,
        engine: &Engine,
        txn: TxnId,
        dice: &mut Dice,
        operations: &mut Operations,
    ) -> Result<(), Cause> {
        engine.begin(txn);
        for number in 0..1 + dice.roll(self.operations) {
            let (key, value) = (dice.roll(self.keys), txn * 100 + number);
            match dice.roll(12) {
                0..=4 => operations.read(key, engine.read(txn, key)?),
                5 => {
                    let bucket = engine.bucket_of(key);
                    operations.scan(bucket, &engine.scan(txn, bucket)?);
                }
                6 => operations.insert(key, value, engine.insert(txn, key, value)?),
                7 => operations.delete(key, engine.write(txn, key, None)?),
                _ => operations.update(key, value, engine.write(txn, key, Some(value))?),
            }
            pause(dice);
        }
        engine.finish(txn)?;
        ask(engine, txn, |engine| engine.precommit(txn))?;
        pause(dice);
        while engine.release(txn).is_some() {}
        if dice.roll(1_000) < FAILURES {
            pause(dice);
            return Err(engine.abort(txn, Cause::Asked));
        }
        ask(engine, txn, |engine| engine.commit(txn))
    }
}

/// Lets another thread go on, now and then.
fn pause(dice: &mut Dice) {
    if dice.roll(4) == 0 {
        thread::yield_now();
    }
}

/// Asks until the transaction waits no longer; after many turns it gives up.
fn ask<T>(engine: &Engine, txn: TxnId, event: impl Fn(&Engine) -> Result<Asked<T>, Cause>) -> Result<(), Cause> {
    for _ in 0..TURNS {
        if let Asked::Done(_) = event(engine)? {
            return Ok(());
        }
        thread::yield_now();
    }
    Err(engine.abort(txn, Cause::Asked))
}

/// Looks twice, since the transactions go on meanwhile, and then dooms the victim.
fn break_deadlocks(engine: &Engine, running: &[AtomicU64], is_over: &AtomicBool) {
    while !is_over.load(SeqCst) {
        let mut among: Vec<TxnId> = running.iter().map(|it| it.load(SeqCst)).filter(|it| *it != 0).collect();
        among.sort_unstable();
        let cycle = engine.cycle(&among);
        if cycle.is_some() && cycle == engine.cycle(&among) {
            cycle.into_iter().for_each(|it| engine.txn(it[0]).set_doom(Cause::Deadlock));
        }
        thread::sleep(Duration::from_micros(200));
    }
}
