//! The history of a run as JSON Lines: the opening rows, then a line for each transaction.

use crate::store::{Engine, Opening};
use crate::words::TxnId;
use std::collections::BTreeMap;
use std::fmt::Write;
use std::fs::File;
use std::io::{self, BufWriter, Write as _};
use std::sync::atomic::Ordering::SeqCst;

/// The operations of one transaction with their answers, as JSON.
#[derive(Default)]
pub struct Operations(String);

impl Operations {
    fn add(&mut self, operation: &str) {
        if !self.0.is_empty() {
            self.0.push(',');
        }
        self.0.push_str(operation);
    }

    pub fn read(&mut self, key: u64, value: Option<u64>) {
        let value = value.map_or("null".to_string(), |it| it.to_string());
        self.add(&format!("[\"read\",{key},{value}]"));
    }

    pub fn scan(&mut self, bucket: usize, rows: &BTreeMap<u64, u64>) {
        self.add(&format!("[\"scan\",{bucket},{}]", pairs(rows.iter())));
    }

    pub fn insert(&mut self, key: u64, value: u64, done: bool) {
        self.add(&format!("[\"insert\",{key},{value},{done}]"));
    }

    pub fn update(&mut self, key: u64, value: u64, done: bool) {
        self.add(&format!("[\"update\",{key},{value},{done}]"));
    }

    pub fn delete(&mut self, key: u64, done: bool) {
        self.add(&format!("[\"delete\",{key},{done}]"));
    }
}

fn pairs<'a>(rows: impl Iterator<Item = (&'a u64, &'a u64)>) -> String {
    let rows: Vec<String> = rows.map(|(key, value)| format!("[{key},{value}]")).collect();
    format!("[{}]", rows.join(","))
}

/// The line of a transaction that is over.
pub fn line(engine: &Engine, txn: TxnId, committed: bool, operations: &Operations) -> String {
    let it = engine.txn(txn);
    let mut line = format!("{{\"txn\":{txn},\"level\":\"{}\",\"begin\":{}", it.level.name(), it.begin.load(SeqCst));
    if committed {
        let _ = write!(line, ",\"end\":{}", it.end());
    }
    let status = if committed { "committed" } else { "aborted" };
    let _ = write!(line, ",\"status\":\"{status}\",\"ops\":[{}]}}", operations.0);
    line
}

pub fn save(path: &str, opening: &Opening, lines: &[String]) -> io::Result<()> {
    let mut file = BufWriter::new(File::create(path)?);
    let rows = pairs(opening.rows.iter().map(|(key, value)| (key, value)));
    writeln!(file, "{{\"buckets\":{},\"rows\":{rows}}}", opening.buckets)?;
    for line in lines {
        writeln!(file, "{line}")?;
    }
    file.flush()
}
