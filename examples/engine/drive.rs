//! The engine step by step: it loads a schedule, takes events from standard input, and answers each by its reply, its whole
//! state and an empty line. The state has the lines of `hek run --state`.

use crate::events::Asked;
use crate::exchanges::Exchanges;
use crate::store::{Engine, Entry, Opening, State};
use crate::words::TxnId;
use crate::{Bug, Cause, Level};
use std::error::Error;
use std::fmt::Display;
use std::io::{self, BufRead, Write};
use std::sync::atomic::Ordering::SeqCst;

/// How many versions there is room for, beside the rows.
const ROOM: usize = 100_000;

struct Drive {
    engine: Engine,
    names: Vec<String>,
}

/// The rows and transactions of a schedule text. Its steps play no part.
fn load(text: &str, bug: Option<Bug>) -> Result<Drive, Box<dyn Error>> {
    let mut opening = Opening { buckets: 1, rows: Vec::new(), levels: Vec::new(), room: ROOM };
    let mut names = Vec::new();
    for line in text.lines() {
        let line = line.split('#').next().unwrap_or("");
        match *line.split_whitespace().collect::<Vec<_>>() {
            ["buckets", count] => opening.buckets = count.parse()?,
            ["row", key, value] => opening.rows.push((key.parse()?, value.parse()?)),
            ["txn", name, level] => {
                names.push(name.to_string());
                opening.levels.push(Level::named(level).ok_or("no such level")?);
            }
            _ => {}
        }
    }
    Ok(Drive { engine: Engine::new(&opening, bug, Exchanges::default()), names })
}

pub fn run(text: &str, bug: Option<Bug>) -> Result<(), Box<dyn Error>> {
    let drive = load(text, bug)?;
    let mut out = io::stdout().lock();
    drive.write_state(&mut out)?;
    for line in io::stdin().lock().lines() {
        let line = line?;
        let words: Vec<&str> = line.split_whitespace().collect();
        writeln!(out, "{}", drive.step(&words)?)?;
        drive.write_state(&mut out)?;
    }
    Ok(())
}

fn aborted(cause: Cause) -> String {
    format!("aborted {}", cause.name())
}

/// The reply where an event is done, or has aborted its transaction.
fn reply<T>(answer: Result<T, Cause>, text: impl FnOnce(T) -> String) -> String {
    answer.map_or_else(aborted, text)
}

fn either(done: bool, yes: &str, no: &str) -> String {
    String::from(if done { yes } else { no })
}

impl Drive {
    fn step(&self, words: &[&str]) -> Result<String, Box<dyn Error>> {
        let (name, event, operands) = match words {
            ["detect"] => return Ok(self.detect()),
            [name, event, operands @ ..] => (name, *event, operands),
            _ => return Err("no such event".into()),
        };
        let place = self.names.iter().position(|it| it == name).ok_or("no such transaction")?;
        let numbers = operands.iter().map(|it| it.parse()).collect::<Result<Vec<u64>, _>>()?;
        let txn = place as TxnId + 1;
        match self.engine.txn(txn).state() {
            State::Aborted(cause) if !["release", "stamp", "end"].contains(&event) => Ok(aborted(cause)),
            _ => self.do_event(txn, event, &numbers),
        }
    }

    fn do_event(&self, txn: TxnId, event: &str, numbers: &[u64]) -> Result<String, Box<dyn Error>> {
        let engine = &self.engine;
        Ok(match (event, numbers) {
            ("begin", []) => format!("began {}", engine.begin(txn)),
            ("read", [key]) => {
                reply(engine.read(txn, *key), |found| found.map_or("absent".into(), |it| format!("found {it}")))
            }
            ("scan", [bucket]) => reply(engine.scan(txn, *bucket as usize), |rows| {
                rows.iter().fold("rows".into(), |text, (key, value)| format!("{text} {key}={value}"))
            }),
            ("insert", [key, value]) => reply(engine.insert(txn, *key, *value), |done| either(done, "done", "exists")),
            ("update", [key, value]) => {
                reply(engine.write(txn, *key, Some(*value)), |done| either(done, "done", "absent"))
            }
            ("delete", [key]) => reply(engine.write(txn, *key, None), |done| either(done, "done", "absent")),
            ("finish", []) => reply(engine.finish(txn), |()| "ready".into()),
            ("precommit", []) => reply(engine.precommit(txn), |asked| match asked {
                Asked::Done(time) => format!("precommitted {time}"),
                Asked::Waiting(count) => format!("waiting {count}"),
            }),
            ("commit", []) => reply(engine.commit(txn), |asked| match asked {
                Asked::Done(()) => "committed".into(),
                Asked::Waiting(count) => format!("waiting commits {count}"),
            }),
            ("fail", []) => reply(engine.not_doomed(txn), |()| {
                engine.abort(txn, Cause::Asked);
                "failed".into()
            }),
            ("release", []) => reply(engine.not_doomed(txn), |()| or_nothing(engine.release(txn))),
            ("stamp", []) => or_nothing(engine.stamp(txn)),
            ("end", []) => {
                engine.end(txn);
                "over".into()
            }
            _ => return Err("no such event".into()),
        })
    }

    fn detect(&self) -> String {
        let among: Vec<TxnId> = self.engine.ids().collect();
        let Some(cycle) = self.engine.cycle(&among) else {
            return "no cycle".into();
        };
        self.engine.abort(cycle[0], Cause::Deadlock);
        format!("victim {} cycle{}", cycle[0], list(&cycle))
    }

    fn write_state(&self, out: &mut impl Write) -> io::Result<()> {
        let engine = &self.engine;
        writeln!(out, "clock {}", engine.clock.load(SeqCst))?;
        for index in 0..engine.version_count() {
            let it = engine.version(index);
            let (begin, end) = (it.begin.load(SeqCst), it.end.load(SeqCst));
            writeln!(out, "version {index}: key {} value {}; {begin:016X}; {end:016X}", it.key, it.value)?;
        }
        for txn in engine.ids() {
            self.write_txn(out, txn)?;
        }
        for (index, bucket) in engine.buckets.iter().enumerate() {
            let holders = bucket.locks.lock().unwrap();
            if !holders.is_empty() {
                writeln!(out, "bucket {index}: locks {}; holders{}", holders.len(), list(&holders))?;
            }
        }
        writeln!(out)?;
        out.flush()
    }

    fn write_txn(&self, out: &mut impl Write, txn: TxnId) -> io::Result<()> {
        let it = self.engine.txn(txn);
        let (held, name) = (it.held(), &self.names[txn as usize - 1]);
        let writes: Vec<String> = held.writes.iter().map(entry).collect();
        write!(out, "txn {txn} {name}: {}; {}", it.level.name(), state(it.state()))?;
        write!(out, "; begin {}; end {}", time(it.begin.load(SeqCst)), time(it.drawn_end()))?;
        write!(out, "; waits {}; commits {}", it.waits.count(), it.commit_waits.load(SeqCst))?;
        write!(out, "; no-more-waits {}", either(it.waits.is_finished(), "set", "clear"))?;
        write!(out, "; abort-now {}", either(it.doom() == Some(Cause::Cascade), "set", "clear"))?;
        write!(out, "; reads{}; writes{}", list(&held.read_locks), list(&writes))?;
        write!(out, "; buckets{}; waiting{}", list(&held.buckets), list(&it.waiting()))?;
        writeln!(out, "; dependents{}", list(&it.dependents().ids))
    }
}

fn or_nothing(given: Option<impl Display>) -> String {
    given.map_or("nothing".into(), |it| it.to_string())
}

fn list<T: Display>(members: &[T]) -> String {
    if members.is_empty() {
        return " none".into();
    }
    members.iter().map(|it| format!(" {it}")).collect()
}

fn entry(entry: &Entry) -> String {
    match entry {
        Entry::Begin(index) => format!("begin-{index}"),
        Entry::End(index) => format!("end-{index}"),
    }
}

fn time(time: u64) -> String {
    if time == 0 {
        "none".into()
    } else {
        time.to_string()
    }
}

fn state(state: State) -> String {
    match state {
        State::NotBegun => "not begun".into(),
        State::Active => "active".into(),
        State::Preparing => "preparing".into(),
        State::Committed => "committed".into(),
        State::Aborted(cause) => aborted(cause),
        State::Terminated => "terminated".into(),
    }
}
