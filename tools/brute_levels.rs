//! Draws small logs, and judges each at each level by going through all explanations, as docs/LEVELS.md defines them. Nothing
//! here is taken from the program's sources.
//!
//!     brute_levels COUNT SEED
//!
//! Of each log it prints a line `log`, the lines of the log, and for each way to bind turns a line
//! `verdicts OPTIONS: LEVEL=holds LEVEL=fails ..`.
use std::fmt::Write as _;

/// Random numbers (xorshift).
struct Draw(u64);

impl Draw {
    fn next(&mut self) -> u64 {
        self.0 ^= self.0 << 13;
        self.0 ^= self.0 >> 7;
        self.0 ^= self.0 << 17;
        self.0
    }
    fn below(&mut self, n: u64) -> u64 {
        (self.next() >> 11) % n
    }
    fn chance(&mut self, percent: u64) -> bool {
        self.below(100) < percent
    }
    fn one<T: Copy>(&mut self, list: &[T]) -> T {
        list[self.below(list.len() as u64) as usize]
    }
}

#[derive(Clone, Copy, PartialEq, Debug)]
enum Need {
    Absent,
    Present,
    Value(u64),
}

fn meets(need: Need, value: Option<u64>) -> bool {
    match need {
        Need::Absent => value.is_none(),
        Need::Present => value.is_some(),
        Need::Value(x) => value == Some(x),
    }
}

#[derive(Clone)]
enum Op {
    Read(usize, Option<u64>),
    Write(usize, u64),
    Insert(usize, u64, bool),
    Update(usize, u64, bool),
    Delete(usize, bool),
    Range(usize, usize, Vec<(usize, u64)>),
}

#[derive(Clone, Copy, PartialEq)]
enum Status {
    Committed,
    Aborted,
    Unknown,
}

#[derive(Clone, Copy, PartialEq)]
enum Own {
    Serializable,
    Snapshot,
    Repeatable,
}

/// A transaction of a log.
#[derive(Clone)]
struct Txn {
    status: Status,
    level: Own,
    begin: Option<u64>,
    end: Option<u64>,
    at: (Option<u64>, Option<u64>),
    session: Option<(u64, u64)>,
    ops: Vec<Op>,
    /// Numbers of versions, by key.
    versions: Vec<(usize, u64)>,
}

/// What levels see of it.
#[derive(Clone, Default)]
struct Seen {
    committed: bool,
    possible: bool,
    fits: bool,
    reads: Vec<(usize, usize, Need)>,
    writes: Vec<(usize, Option<u64>)>,
    passing: Vec<(usize, Option<u64>)>,
}

impl Default for Need {
    fn default() -> Self {
        Need::Absent
    }
}

fn seen_of(txn: &Txn, keys: usize, lenient: bool) -> Seen {
    let mut seen = Seen { committed: txn.status == Status::Committed, possible: txn.status != Status::Aborted, fits: true, ..Seen::default() };
    let mut own: Vec<Option<Option<u64>>> = vec![None; keys];
    fn tell(seen: &mut Seen, own: &[Option<Option<u64>>], lenient: bool, n: usize, key: usize, need: Need) {
        if lenient && need == Need::Absent {
            return;
        }
        match own[key] {
            Some(value) => seen.fits &= meets(need, value),
            None => seen.reads.push((n, key, need)),
        }
    }
    fn change(seen: &mut Seen, own: &mut [Option<Option<u64>>], key: usize, value: Option<u64>) {
        if let Some(before) = own[key] {
            seen.passing.push((key, before));
        }
        own[key] = Some(value);
    }
    for (n, op) in txn.ops.iter().enumerate() {
        match op {
            Op::Read(key, found) => tell(&mut seen, &own, lenient, n, *key, found.map_or(Need::Absent, Need::Value)),
            Op::Write(key, value) => change(&mut seen, &mut own, *key, Some(*value)),
            Op::Insert(key, value, done) => {
                tell(&mut seen, &own, lenient, n, *key, if *done { Need::Absent } else { Need::Present });
                if *done {
                    change(&mut seen, &mut own, *key, Some(*value));
                }
            }
            Op::Update(key, value, done) => {
                tell(&mut seen, &own, lenient, n, *key, if *done { Need::Present } else { Need::Absent });
                if *done {
                    change(&mut seen, &mut own, *key, Some(*value));
                }
            }
            Op::Delete(key, done) => {
                tell(&mut seen, &own, lenient, n, *key, if *done { Need::Present } else { Need::Absent });
                if *done {
                    change(&mut seen, &mut own, *key, None);
                }
            }
            Op::Range(low, high, pairs) => {
                for key in *low..*high {
                    let found = pairs.iter().find(|p| p.0 == key);
                    tell(&mut seen, &own, lenient, n, key, found.map_or(Need::Absent, |p| Need::Value(p.1)));
                }
            }
        }
    }
    for key in 0..keys {
        if let Some(value) = own[key] {
            seen.writes.push((key, value));
        }
    }
    seen
}

/// What a read sees, by a level's row of the table.
#[derive(Clone, Copy, Default)]
struct Rules {
    whole: bool,
    /// 0: no reads of its own; 1: those of the same or earlier operations; 2: all.
    own: u8,
    writers: bool,
    turns: bool,
    turn_reads: bool,
    causes: bool,
    prefix: bool,
    next_writers: bool,
    next_turns: bool,
    next_turn_reads: bool,
}

fn table() -> Vec<(&'static str, Rules)> {
    let none = Rules::default();
    let causal = Rules { own: 2, turns: true, causes: true, next_turns: true, ..none };
    let ask = |mr: bool, ryw: bool, mw: bool, wfr: bool| Rules {
        own: 1,
        turns: ryw,
        turn_reads: mr,
        causes: wfr,
        next_turns: mw,
        next_turn_reads: wfr,
        ..none
    };
    vec![
        ("read-committed", none),
        ("monotonic-view", Rules { own: 1, ..none }),
        ("read-atomic", Rules { own: 2, turns: true, ..none }),
        ("causal", causal),
        ("prefix", Rules { prefix: true, ..causal }),
        ("parallel-snapshot", Rules { writers: true, next_writers: true, ..causal }),
        ("snapshot", Rules { writers: true, next_writers: true, prefix: true, ..causal }),
        ("serializable", Rules { whole: true, ..none }),
        ("monotonic-reads", ask(true, false, false, false)),
        ("read-your-writes", ask(false, true, false, false)),
        ("monotonic-writes", ask(false, false, true, false)),
        ("writes-follow-reads", ask(false, false, false, true)),
        ("guarantees", ask(true, true, true, true)),
    ]
}

/// A log with how turns bind.
struct Case<'a> {
    rows: &'a [Option<u64>],
    txns: &'a [Seen],
    /// kept[x] has t: x is before t by some turn; earlier: by one that is seen.
    kept: Vec<u32>,
    earlier: Vec<u32>,
    /// The rules of each transaction, for each question.
    questions: Vec<Vec<Rules>>,
}

impl Case<'_> {
    fn left(&self, t: usize, key: usize) -> Option<Option<u64>> {
        self.txns[t].writes.iter().find(|w| w.0 == key).map(|w| w.1)
    }

    /// Whether the order with these sources explains the log by a question's rules. Sources are by transaction and read; the opening
    /// is 99.
    fn explains(&self, order: &[usize], place: &[usize], source: &[Vec<usize>], rules: &[Rules]) -> bool {
        let bit = |x: usize| 1u32 << x;
        let mut from = vec![0u32; self.txns.len()];
        let mut before = vec![0u32; self.txns.len()];
        let mut so_far = 0u32;
        for &t in order {
            before[t] = so_far;
            so_far |= bit(t);
            for &w in &source[t] {
                if w != 99 {
                    from[t] |= bit(w);
                }
            }
        }
        let shares = |t: usize| {
            let mut set = 0u32;
            for &x in order {
                if place[x] < place[t] && self.txns[x].writes.iter().any(|w| self.left(t, w.0).is_some()) {
                    set |= bit(x);
                }
            }
            set
        };
        let turned = |t: usize| {
            let mut set = 0u32;
            for &x in order {
                if place[x] < place[t] && self.earlier[x] & bit(t) != 0 {
                    set |= bit(x);
                }
            }
            set
        };
        let brought = |t: usize| {
            let mut set = 0u32;
            for &x in order {
                if turned(t) & bit(x) != 0 {
                    set |= from[x];
                }
            }
            set
        };
        for &t in order {
            let r = rules[t];
            let shows = |y: usize| {
                let mut set = 0u32;
                if r.prefix {
                    set |= before[y];
                }
                if r.causes {
                    set |= from[y];
                }
                if r.next_writers {
                    set |= shares(y);
                }
                if r.next_turns {
                    set |= turned(y);
                }
                if r.next_turn_reads {
                    set |= brought(y);
                }
                set
            };
            for (i, &(n, key, _)) in self.txns[t].reads.iter().enumerate() {
                let mut seen = 0u32;
                if r.whole {
                    seen |= before[t];
                }
                for (q, &(m, _, _)) in self.txns[t].reads.iter().enumerate() {
                    if source[t][q] != 99 && (r.own == 2 || (r.own == 1 && m <= n)) {
                        seen |= bit(source[t][q]);
                    }
                }
                if r.writers {
                    seen |= shares(t);
                }
                if r.turns {
                    seen |= turned(t);
                }
                if r.turn_reads {
                    seen |= brought(t);
                }
                loop {
                    let mut more = seen;
                    for &y in order {
                        if seen & bit(y) != 0 {
                            more |= shows(y);
                        }
                    }
                    if more == seen {
                        break;
                    }
                    seen = more;
                }
                let low = if source[t][i] == 99 { 0 } else { place[source[t][i]] + 1 };
                for &x in order {
                    if seen & bit(x) != 0 && self.left(x, key).is_some() && place[x] + 1 > low {
                        return false;
                    }
                }
            }
        }
        true
    }

    /// All sources of the reads of an order, one after another, until each question is answered.
    fn pick(&self, order: &[usize], place: &[usize], units: &[(usize, usize, Vec<usize>)], at: usize, source: &mut Vec<Vec<usize>>, open: &mut Vec<bool>) {
        if open.iter().all(|o| !o) {
            return;
        }
        if at == units.len() {
            for q in 0..open.len() {
                if open[q] && self.explains(order, place, source, &self.questions[q]) {
                    open[q] = false;
                }
            }
            return;
        }
        let (t, r, ref candidates) = units[at];
        for &w in candidates {
            if w == 99 || place[w] < place[t] {
                source[t][r] = w;
                self.pick(order, place, units, at + 1, source, open);
            }
        }
    }

    /// All orders of those who take place.
    fn orders(&self, rest: &mut Vec<usize>, order: &mut Vec<usize>, units: &[(usize, usize, Vec<usize>)], open: &mut Vec<bool>) {
        if open.iter().all(|o| !o) {
            return;
        }
        if rest.is_empty() {
            let mut place = vec![99; self.txns.len()];
            for (i, &t) in order.iter().enumerate() {
                place[t] = i;
            }
            let mut source: Vec<Vec<usize>> = self.txns.iter().map(|t| vec![99; t.reads.len()]).collect();
            self.pick(order, &place, units, 0, &mut source, open);
            return;
        }
        for n in 0..rest.len() {
            let t = rest[n];
            // whoever is before t by turns must have come, and t isn't before itself
            let is_kept = rest.iter().all(|&x| self.kept[x] & (1 << t) == 0);
            if !is_kept {
                continue;
            }
            rest.remove(n);
            order.push(t);
            self.orders(rest, order, units, open);
            order.pop();
            rest.insert(n, t);
        }
    }

    /// Which questions have an explanation.
    fn holds(&self) -> Vec<bool> {
        let mut open = vec![true; self.questions.len()];
        if self.txns.iter().any(|t| t.committed && !t.fits) {
            return vec![false; open.len()];
        }
        let must: Vec<usize> = (0..self.txns.len()).filter(|&t| self.txns[t].committed).collect();
        let may: Vec<usize> = (0..self.txns.len()).filter(|&t| !self.txns[t].committed && self.txns[t].possible && self.txns[t].fits).collect();
        for choice in 0..1usize << may.len() {
            let mut rest = must.clone();
            for (i, &t) in may.iter().enumerate() {
                if choice >> i & 1 == 1 {
                    rest.push(t);
                }
            }
            let mut units = Vec::new();
            for &t in &rest {
                for (r, &(_, key, need)) in self.txns[t].reads.iter().enumerate() {
                    let mut candidates = Vec::new();
                    if meets(need, self.rows[key]) {
                        candidates.push(99);
                    }
                    for &x in &rest {
                        if x != t && self.left(x, key).is_some_and(|v| meets(need, v)) {
                            candidates.push(x);
                        }
                    }
                    units.push((t, r, candidates));
                }
            }
            if units.iter().any(|u| u.2.is_empty()) {
                continue;
            }
            self.orders(&mut rest.clone(), &mut Vec::new(), &units, &mut open);
        }
        open.iter().map(|o| !o).collect()
    }

    /// Whether some order of those who committed keeps the turns, and each of their reads finds what somebody wrote, or the opening.
    fn uncommitted(&self) -> bool {
        for (t, txn) in self.txns.iter().enumerate() {
            if !txn.committed {
                continue;
            }
            for &(_, key, need) in &txn.reads {
                let is_found = meets(need, self.rows[key])
                    || self.txns.iter().enumerate().any(|(x, other)| {
                        x != t && other.writes.iter().chain(&other.passing).any(|w| w.0 == key && meets(need, w.1))
                    });
                if !is_found {
                    return false;
                }
            }
        }
        let mut rest: Vec<usize> = (0..self.txns.len()).filter(|&t| self.txns[t].committed).collect();
        while !rest.is_empty() {
            match rest.iter().position(|&t| rest.iter().all(|&x| self.kept[x] & (1 << t) == 0)) {
                Some(n) => {
                    rest.remove(n);
                }
                None => return false,
            }
        }
        true
    }
}

/// Draws a log: transactions run one after another against rows, sometimes on an older state, sometimes told wrong.
fn draw_log(draw: &mut Draw) -> (Vec<Option<u64>>, Vec<Txn>) {
    let keys = draw.one(&[1usize, 2, 2, 3, 3]);
    let count = draw.one(&[2usize, 3, 3, 4, 4, 4, 5]);
    let unique = draw.chance(40);
    let mut rows = vec![None; keys];
    for row in rows.iter_mut() {
        if draw.chance(70) {
            *row = Some(0);
        }
    }
    let mut states = vec![rows.clone()];
    let mut next = 10;
    let (wild, per_read) = (draw.one(&[0, 20, 40, 60, 80]), draw.chance(30));
    let has_sessions = draw.chance(60);
    let has_times = draw.chance(50);
    let has_ends = draw.chance(50);
    let versions = draw.chance(30);
    let mut counts = vec![0u64; keys];
    let mut txns = Vec::new();
    for i in 0..count {
        let mut base = states[states.len() - 1].clone();
        if draw.chance(wild) {
            base = states[draw.below(states.len() as u64) as usize].clone();
        }
        let mut own: Vec<Option<Option<u64>>> = vec![None; keys];
        let mut ops = Vec::new();
        for _ in 0..draw.one(&[1, 2, 2, 3, 3, 4]) {
            if per_read && draw.chance(40) {
                base = states[draw.below(states.len() as u64) as usize].clone();
            }
            let key = draw.below(keys as u64) as usize;
            let now = own[key].unwrap_or(base[key]);
            let wrong = draw.chance(3);
            let value = if unique {
                next += 1;
                next
            } else {
                draw.below(4)
            };
            match draw.below(20) {
                0..=7 => {
                    let found = if wrong { draw.one(&[None, Some(0), Some(1), Some(11)]) } else { now };
                    ops.push(Op::Read(key, found));
                }
                8..=12 => {
                    ops.push(Op::Write(key, value));
                    own[key] = Some(Some(value));
                }
                13..=14 => {
                    let done = now.is_none() != wrong;
                    ops.push(Op::Insert(key, value, done));
                    if done {
                        own[key] = Some(Some(value));
                    }
                }
                15..=16 => {
                    let done = now.is_some() != wrong;
                    ops.push(Op::Update(key, value, done));
                    if done {
                        own[key] = Some(Some(value));
                    }
                }
                17 => {
                    let done = now.is_some() != wrong;
                    ops.push(Op::Delete(key, done));
                    if done {
                        own[key] = Some(None);
                    }
                }
                _ => {
                    let low = draw.below(keys as u64) as usize;
                    let high = (low + 1 + draw.below(2) as usize).min(keys);
                    let mut pairs = Vec::new();
                    for k in low..high {
                        let here = own[k].unwrap_or(base[k]);
                        if let Some(v) = here {
                            if !draw.chance(3) {
                                pairs.push((k, v));
                            }
                        }
                    }
                    ops.push(Op::Range(low, high, pairs));
                }
            }
        }
        let status = match draw.below(100) {
            0..=79 => Status::Committed,
            80..=91 => Status::Unknown,
            _ => Status::Aborted,
        };
        let mut written = Vec::new();
        if status != Status::Aborted || draw.chance(20) {
            let mut state = states[states.len() - 1].clone();
            for key in 0..keys {
                if let Some(value) = own[key] {
                    state[key] = value;
                    counts[key] += 1;
                    if versions && draw.chance(90) {
                        let number = if draw.chance(10) { draw.below(4) + 1 } else { counts[key] };
                        written.push((key, number));
                    }
                }
            }
            states.push(state);
        }
        let place = 2 * i as u64 + 2;
        let wide = draw.one(&[1u64, 1, 2, 4, 8]);
        let invoked = place.saturating_sub(draw.below(wide));
        let answered = place + draw.below(wide);
        let session = if has_sessions && draw.chance(85) { Some((draw.below(2), i as u64 + if draw.chance(10) { draw.below(3) } else { 0 })) } else { None };
        let end = if draw.chance(10) { draw.below(12) + 1 } else { place };
        txns.push(Txn {
            status,
            level: draw.one(&[Own::Serializable, Own::Serializable, Own::Snapshot, Own::Repeatable]),
            begin: None,
            end: if has_ends && (status == Status::Committed || draw.chance(50)) { Some(end) } else { None },
            at: if has_times {
                (if draw.chance(90) { Some(invoked) } else { None }, if draw.chance(90) { Some(answered) } else { None })
            } else {
                (None, None)
            },
            session,
            ops,
            versions: written,
        });
    }
    (rows, txns)
}

fn number(value: Option<u64>) -> String {
    value.map_or("null".to_string(), |v| v.to_string())
}

/// The key that an operation changes, if it does.
fn changed(op: &Op) -> Option<usize> {
    match op {
        Op::Write(k, _) | Op::Insert(k, _, true) | Op::Update(k, _, true) | Op::Delete(k, true) => Some(*k),
        _ => None,
    }
}

/// What the last write of a key says of its version, if that has a number.
fn version(txn: &Txn, n: usize, key: usize) -> String {
    let is_last = changed(&txn.ops[n]) == Some(key) && !txn.ops[n + 1..].iter().any(|op| changed(op) == Some(key));
    match txn.versions.iter().find(|it| it.0 == key) {
        Some((_, number)) if is_last => format!(",{{\"version\":{number}}}"),
        _ => String::new(),
    }
}

/// The lines of a log.
fn lines(rows: &[Option<u64>], txns: &[Txn], order: &[usize]) -> String {
    let mut out = String::new();
    let pairs: Vec<String> = rows.iter().enumerate().filter_map(|(k, v)| v.map(|v| format!("[{k},{v}]"))).collect();
    let _ = writeln!(out, "{{\"rows\":[{}]}}", pairs.join(","));
    for &t in order {
        let txn = &txns[t];
        let _ = write!(out, "{{\"txn\":\"T{t}\"");
        match txn.level {
            Own::Serializable => {}
            Own::Snapshot => out.push_str(",\"level\":\"snapshot\""),
            Own::Repeatable => out.push_str(",\"level\":\"repeatable\""),
        }
        match txn.status {
            Status::Committed => {}
            Status::Aborted => out.push_str(",\"status\":\"aborted\""),
            Status::Unknown => out.push_str(",\"status\":\"unknown\""),
        }
        if let Some(begin) = txn.begin {
            let _ = write!(out, ",\"begin\":{begin}");
        }
        if let Some(end) = txn.end {
            let _ = write!(out, ",\"end\":{end}");
        }
        if txn.at != (None, None) {
            let _ = write!(out, ",\"at\":[{},{}]", number(txn.at.0), number(txn.at.1));
        }
        if let Some((name, place)) = txn.session {
            let _ = write!(out, ",\"session\":[\"s{name}\",{place}]");
        }
        let ops: Vec<String> = txn
            .ops
            .iter()
            .enumerate()
            .map(|(n, op)| match op {
                Op::Read(k, v) => format!("[\"read\",{k},{}]", number(*v)),
                Op::Write(k, v) => format!("[\"write\",{k},{v}{}]", version(txn, n, *k)),
                Op::Insert(k, v, d) => format!("[\"insert\",{k},{v},{d}{}]", version(txn, n, *k)),
                Op::Update(k, v, d) => format!("[\"update\",{k},{v},{d}{}]", version(txn, n, *k)),
                Op::Delete(k, d) => format!("[\"delete\",{k},{d}{}]", version(txn, n, *k)),
                Op::Range(l, h, p) => {
                    let pairs: Vec<String> = p.iter().map(|(k, v)| format!("[{k},{v}]")).collect();
                    format!("[\"range\",{l},{h},[{}]]", pairs.join(","))
                }
            })
            .collect();
        let _ = writeln!(out, ",\"ops\":[{}]}}", ops.join(","));
    }
    out
}

/// How turns bind: which are kept, and which are seen.
fn bind(txns: &[Txn], seen: &[Seen], versions: bool, sessions: bool, real: bool) -> (Vec<u32>, Vec<u32>) {
    let n = txns.len();
    let (mut kept, mut earlier) = (vec![0u32; n], vec![0u32; n]);
    for x in 0..n {
        for t in 0..n {
            let mut is_seen = false;
            if sessions {
                if let (Some(a), Some(b)) = (txns[x].session, txns[t].session) {
                    is_seen |= a.0 == b.0 && a.1 < b.1;
                }
            }
            if real && txns[x].status == Status::Committed {
                if let (Some(a), Some(b)) = (txns[x].at.1, txns[t].at.0) {
                    is_seen |= a < b;
                }
            }
            let mut is_kept = is_seen;
            if versions {
                if let (Some(a), Some(b)) = (txns[x].end, txns[t].end) {
                    is_kept |= a < b && seen[x].writes.iter().any(|w| seen[t].writes.iter().any(|v| v.0 == w.0));
                }
                is_kept |= txns[x].versions.iter().any(|a| txns[t].versions.iter().any(|b| a.0 == b.0 && a.1 < b.1));
            }
            if is_seen {
                earlier[x] |= 1 << t;
            }
            if is_kept {
                kept[x] |= 1 << t;
            }
        }
    }
    (kept, earlier)
}

fn main() {
    let words: Vec<String> = std::env::args().collect();
    let count: usize = words[1].parse().expect("COUNT");
    let seed: u64 = words[2].parse().expect("SEED");
    let names = table();
    for n in 0..count {
        let mut draw = Draw((seed.wrapping_mul(1_000_003).wrapping_add(n as u64)).wrapping_mul(0x9E37_79B9_7F4A_7C15) | 1);
        for _ in 0..5 {
            draw.next();
        }
        let (rows, txns) = draw_log(&mut draw);
        let keys = rows.len();
        let mut order: Vec<usize> = (0..txns.len()).collect();
        if draw.chance(30) {
            for i in (1..order.len()).rev() {
                order.swap(i, draw.below(i as u64 + 1) as usize);
            }
        }
        println!("log");
        print!("{}", lines(&rows, &txns, &order));
        let seen: Vec<Seen> = txns.iter().map(|t| seen_of(t, keys, false)).collect();
        let has_sessions = txns.iter().any(|t| t.session.is_some());
        let has_times = txns.iter().any(|t| t.at != (None, None));
        let has_ends = txns.iter().all(|t| t.status != Status::Committed || t.end.is_some()) || txns.iter().any(|t| !t.versions.is_empty());
        for versions in [false, true] {
            for sessions in [false, true] {
                for real in [false, true] {
                    if (versions && !has_ends) || (sessions && !has_sessions) || (real && !has_times) {
                        continue;
                    }
                    let (kept, earlier) = bind(&txns, &seen, versions, sessions, real);
                    let case = Case {
                        rows: &rows,
                        txns: &seen,
                        kept,
                        earlier,
                        questions: names.iter().map(|(_, r)| vec![*r; txns.len()]).collect(),
                    };
                    let found = case.holds();
                    let word = |b: bool| if b { "holds" } else { "fails" };
                    let mut line = String::new();
                    for (i, (name, _)) in names.iter().enumerate() {
                        let _ = write!(line, " {name}={}", word(found[i]));
                    }
                    let _ = write!(line, " read-uncommitted={}", word(case.uncommitted()));
                    println!("verdicts {}{}{}:{line}", if versions { "v" } else { "" }, if sessions { "s" } else { "" }, if real { "r" } else { "" });
                }
            }
        }
    }
}
