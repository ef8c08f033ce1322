//! A small engine with multiversion locking (MV/L): threads, compare-and-swap on Begin and End words, wait counters, commit
//! dependencies, bucket locks, a search for deadlocks, and the levels serializable, repeatable and snapshot. It is here to
//! be checked by Hek, and bugs can be planted into it. README.md says how.

mod bugs;
mod deadlocks;
mod drive;
mod events;
mod exchanges;
mod histories;
mod load;
mod locks;
mod sight;
mod store;
mod walks;
mod words;

use bugs::{Bug, BUGS};
use exchanges::Exchanges;
use load::Load;
use std::error::Error;
use std::process::ExitCode;
use std::str::FromStr;
use std::time::Instant;

const USAGE: &str = "\
engine [WORDS]               a load of random transactions by threads
    --threads N --txns N --keys N --buckets N --ops N --seed N --level LEVEL
    --log FILE               writes the history, a JSON line for each transaction
    --exchanges FILE         writes each exchange of a word, a line WORD OLD NEW TXN
engine --drive FILE          loads a schedule and takes events from standard input
engine --bugs                the names of the bugs
    --bug NAME               plants a bug, into a load or a drive";

#[derive(Clone, Copy, PartialEq, Eq)]
pub enum Level {
    Serializable,
    Repeatable,
    Snapshot,
}

impl Level {
    pub const ALL: [Level; 3] = [Level::Serializable, Level::Repeatable, Level::Snapshot];

    pub fn name(self) -> &'static str {
        ["serializable", "repeatable", "snapshot"][self as usize]
    }

    pub fn named(name: &str) -> Option<Level> {
        Level::ALL.into_iter().find(|it| it.name() == name)
    }
}

/// Why a transaction aborted.
#[derive(Clone, Copy, PartialEq, Eq)]
pub enum Cause {
    Conflict,
    NoMoreReads,
    ReadersFull,
    NoMoreWaits,
    Deadlock,
    Cascade,
    Asked,
}

impl Cause {
    pub const ALL: [Cause; 7] = [
        Cause::Conflict,
        Cause::NoMoreReads,
        Cause::ReadersFull,
        Cause::NoMoreWaits,
        Cause::Deadlock,
        Cause::Cascade,
        Cause::Asked,
    ];

    pub fn name(self) -> &'static str {
        ["conflict", "no-more-reads", "readers-full", "no-more-waits", "deadlock", "cascade", "asked"][self as usize]
    }
}

/// Why a walk stops.
pub enum Stop {
    /// Another transaction changed something meanwhile: the walk begins again.
    Again,
    Abort(Cause),
}

/// The words of the command line.
struct Arguments(Vec<String>);

impl Arguments {
    fn has(&self, name: &str) -> bool {
        self.0.iter().any(|it| it == name)
    }

    fn text(&self, name: &str) -> Option<&str> {
        let place = self.0.iter().position(|it| it == name)?;
        self.0.get(place + 1).map(String::as_str)
    }

    fn number(&self, name: &str, otherwise: u64) -> Result<u64, <u64 as FromStr>::Err> {
        self.text(name).map_or(Ok(otherwise), str::parse)
    }
}

fn run_load(arguments: &Arguments, bug: Option<Bug>) -> Result<ExitCode, Box<dyn Error>> {
    let level = arguments.text("--level").filter(|it| *it != "mixed");
    let load = Load {
        threads: arguments.number("--threads", 4)?,
        txns: arguments.number("--txns", 2_000)?,
        keys: arguments.number("--keys", 32)?,
        buckets: arguments.number("--buckets", 8)?,
        operations: arguments.number("--ops", 5)?,
        seed: arguments.number("--seed", 1)?,
        level: level.map(|it| Level::named(it).ok_or("no such level")).transpose()?,
    };
    let opening = load.opening();
    let engine = store::Engine::new(&opening, bug, Exchanges::new(arguments.text("--exchanges"))?);
    let began = Instant::now();
    let outcome = load.run(&engine);
    let aborted: Vec<String> = outcome.aborted.iter().map(|(cause, count)| format!(", {count} {cause}")).collect();
    let seconds = began.elapsed().as_secs_f64();
    eprintln!("engine: {seconds:.2} s, {} committed{}", outcome.committed, aborted.concat());
    if let Some(path) = arguments.text("--log") {
        histories::save(path, &opening, &outcome.lines)?;
    }
    engine.exchanges.flush()?;
    match engine.exchanges.unlawful() {
        0 => Ok(ExitCode::SUCCESS),
        count => {
            eprintln!("engine: no rule for {count} exchanges");
            Ok(ExitCode::from(3))
        }
    }
}

fn run() -> Result<ExitCode, Box<dyn Error>> {
    let arguments = Arguments(std::env::args().skip(1).collect());
    if arguments.has("--help") {
        println!("{USAGE}");
        return Ok(ExitCode::SUCCESS);
    }
    if arguments.has("--bugs") {
        BUGS.iter().for_each(|(name, _)| println!("{name}"));
        return Ok(ExitCode::SUCCESS);
    }
    let planted = |name| BUGS.iter().find(|it| it.0 == name).map(|it| it.1);
    let bug = arguments.text("--bug").map(|name| planted(name).ok_or("no such bug")).transpose()?;
    match arguments.text("--drive") {
        Some(path) => drive::run(&std::fs::read_to_string(path)?, bug).map(|()| ExitCode::SUCCESS),
        None => run_load(&arguments, bug),
    }
}

fn main() -> ExitCode {
    run().unwrap_or_else(|fault| {
        eprintln!("engine: {fault}");
        ExitCode::from(2)
    })
}
