// A log of transactions, with what `hek history --json` says of it -> a play. Pure.
// A log says what each transaction did, and seldom when. The moves come here in an order that could have been: each read after the write that it
// found, by the log's times where it has them, and as the edges of the cycle want.
import { parse } from "./text.mjs";

/** A log of more transactions or operations is told by those of its cycle alone. */
const MOST = { txns: 12, operations: 60 };
const named = (name) => `{${name}}`;
const same = (one, other) => JSON.stringify(one) === JSON.stringify(other);

/** Whether a text is a log: its first line with words is an object. */
export const isLog = (text) => /^\ufeff?\s*\{/.test(text);

/** The transactions of a log, in order, and its opening rows. */
function read(text) {
  const lines = text.replace(/^\ufeff/, "").split("\n").flatMap((line, index) => (line.trim() ? [{ ...parse(line), line: index + 1 }] : []));
  return { rows: lines.find((it) => !("txn" in it))?.rows ?? [], txns: lines.filter((it) => "txn" in it).map((it) => ({ ...it, name: String(it.txn), ops: it.ops ?? [] })) };
}

// ---- the moves of one transaction

const done = (flag) => flag !== false;

function moveOf([op, ...rest], txn, line) {
  const base = { txn, line, op, steps: [], ends: [], why: "" }, [key, value, flag] = rest;
  switch (op) {
    case "read": return { ...base, kind: "read", key, value: value ?? null, writer: null, say: `${named(txn)} reads ${key}: ${value ?? "no such row"}` };
    case "scan": case "range": {
      const rows = rest.at(-1) ?? [], where = op === "scan" ? `bucket ${key}` : `${key} to ${value}`;
      return { ...base, kind: "scan", bucket: op === "scan" ? key : `${key}..${value}`, rows, say: `${named(txn)} scans ${where}: ${rows.map(([row, its]) => `${row} = ${its}`).join(", ") || "nothing"}` };
    }
    case "delete": return done(value) ? { ...base, kind: "write", key, value: null, say: `${named(txn)} deletes ${key}` } : miss(base, key, "isn't there");
    default: return done(flag) ? { ...base, kind: "write", key, value, say: `${named(txn)} ${op === "insert" ? "inserts" : "writes"} ${key}: ${value}` } : miss(base, key, op === "insert" ? "is there already" : "isn't there");
  }
}

const miss = (base, key, how) => ({ ...base, kind: "miss", key, value: null, say: `${named(base.txn)} writes nothing: ${key} ${how}` });

function endOf({ name, status, line }) {
  const base = { txn: name, line, steps: [], ends: [], why: "" };
  if (status === "aborted") return { ...base, kind: "abort", cause: "", op: null, say: `${named(name)} aborts` };
  if (status === "unknown") return { ...base, kind: "unknown", say: `${named(name)} ends, and nobody knows how` };
  return { ...base, kind: "commit", committed: null, say: `${named(name)} commits` };
}

// ---- an order of all moves

/** Constraints between moves, none of which makes a circle: one that would is left out. */
class Before {
  constructor(count) { this.after = Array.from({ length: count }, () => new Set()); }

  reaches(from, to) {
    const seen = new Set([from]), left = [from];
    while (left.length) {
      const at = left.pop();
      if (at === to) return true;
      for (const next of this.after[at]) if (!seen.has(next)) { seen.add(next); left.push(next); }
    }
    return false;
  }

  add(first, second) {
    if (first === undefined || second === undefined || first === second || this.reaches(second, first)) return;
    this.after[first].add(second);
  }

  /** The moves in an order, each time going on with the same transaction if that may. */
  order(moves) {
    const left = new Set(moves.keys()), blocked = (it) => [...left].some((other) => this.after[other].has(it)), order = [];
    while (left.size) {
      const free = [...left].filter((it) => !blocked(it)), last = order.length ? moves[order.at(-1)].txn : null, next = free.find((it) => moves[it].txn === last) ?? free[0];
      order.push(next);
      left.delete(next);
    }
    return order;
  }
}

/** The writes of a value at a key by other transactions. */
const writersOf = (moves, { txn, key, value }) => moves.flatMap((it, index) => (it.kind === "write" && it.txn !== txn && same([it.key, it.value], [key, value]) ? [index] : []));

/** What a move found: of a read its pair, of a scan all. */
const foundBy = (it) => (it.kind === "read" ? (it.value === null ? [] : [[it.key, it.value]]) : it.kind === "scan" ? it.rows : []);

function constraints(txns, moves, cycle) {
  const before = new Before(moves.length), at = new Map(txns.map(({ name }) => [name, moves.flatMap((it, index) => (it.txn === name ? [index] : []))]));
  for (const its of at.values()) its.slice(1).forEach((it, index) => before.add(its[index], it));
  moves.forEach((it, index) => {
    for (const [key, value] of foundBy(it)) {
      const [writer, ...more] = writersOf(moves, { txn: it.txn, key, value });
      if (writer !== undefined && !more.length) { before.add(writer, index); it.found = writer; }
    }
  });
  addTimes(before, txns, at);
  for (const { from, to, ends: [first, second] } of cycle) if (from !== to) before.add(first, second);
  moves.forEach((it, index) => {
    if (it.found === undefined) return;
    const its = at.get(moves[it.found].txn), end = its.at(-1), later = its.find((other) => other > it.found && moves[other].kind === "write" && same(moves[other].key, it.key));
    if (later !== undefined) before.add(index, later);
    if (moves[end].kind === "commit") before.add(end, index); else before.add(index, end);
  });
  return before;
}

/** By the log's times: who had ended before another began comes before it. */
function addTimes(before, txns, at) {
  const times = ({ begin, end, at: [invoked, answered] = [] }) => [begin ?? invoked ?? null, end ?? answered ?? null];
  for (const one of txns) for (const other of txns) {
    const [, ended] = times(one), [began] = times(other);
    if (one !== other && ended !== null && began !== null && ended <= began) before.add(at.get(one.name).at(-1), at.get(other.name)[0]);
  }
}

// ---- the play

/** The transactions that are shown: all, or of a large log those of the cycle and those whose writes these read. */
function chosen(txns, cycle) {
  const isSmall = txns.length <= MOST.txns && txns.reduce((sum, { ops }) => sum + ops.length, 0) <= MOST.operations;
  if (isSmall || !cycle.length) return isSmall ? txns : txns.slice(0, MOST.txns);
  const names = new Set(cycle.flatMap(({ from, to, source, reader }) => [from, to, source, reader]).filter((it) => it !== null && it !== undefined).map(String));
  return txns.filter(({ name }) => names.has(name));
}

/** The moves at the two ends of an edge. */
function edgeEnds({ kind, key, read: seen, written, from, to, operations, words = "" }, moves) {
  const own = (name) => moves.flatMap((it, index) => (it.txn === String(name) && /^(read|scan|write|miss)$/.test(it.kind) ? [index] : []));
  if (String(from) === String(to)) {
    const numbers = operations ?? [...words.matchAll(/operation (\d+)/g)].map((it) => Number(it[1])), its = own(from);
    return [its[numbers[0] - 1] ?? its[0], its[numbers[1] - 1] ?? its.at(-1)];
  }
  const isAt = (it) => same(it.key, key), reads = (name, value) => own(name).findLast((it) => foundBy(moves[it]).some((pair) => same(pair, [key, value]))) ?? own(name).findLast((it) => (moves[it].kind === "read" || moves[it].kind === "miss") && isAt(moves[it])) ?? own(name).findLast((it) => moves[it].kind === "scan");
  const writes = (name, value) => own(name).findLast((it) => moves[it].kind === "write" && isAt(moves[it]) && (value === null || value === undefined || same(moves[it].value, value))) ?? own(name).findLast((it) => moves[it].kind === "write" && isAt(moves[it]));
  return [kind === "rw" ? reads(from, seen) : writes(from, kind === "wr" ? seen ?? written : null), kind === "wr" ? reads(to, seen ?? written) : writes(to, kind === "rw" ? written : null)]
    .map((it, index) => it ?? own(index ? to : from).at(-1));
}

const VERDICT = { holds: "serializable", serializable: "serializable", "serializable in another order": "serializable", fails: "not serializable", "not serializable": "not serializable" };

/** The play of a log, whose verdict is an object of `hek history --json`: as serializable, or at the level that it names. */
export function playOfLog(text, answer) {
  const { rows, txns: all } = read(text), edges = answer.cycle ?? [], txns = chosen(all, edges);
  const moves = txns.flatMap((txn) => [...txn.ops.map((op) => moveOf(op, txn.name, txn.line)), endOf(txn)]);
  const cycle = edges.map((edge) => ({ ...edge, from: edge.from === null || edge.from === undefined ? null : String(edge.from), to: edge.to === null ? null : String(edge.to), ends: edgeEnds(edge, moves) }));
  const order = constraints(txns, moves, cycle).order(moves), place = (index) => order.indexOf(index) + 1;
  const told = order.map((index) => ({ ...moves[index], ...found(moves[index], moves, rows, place) }));
  return {
    kind: "log", level: answer.level ?? "serializable", names: txns.map(({ name }) => name), levels: txns.map(({ level }) => level ?? "serializable"), order: null, moves: told, breaks: null,
    together: { verdict: answer.verdict, anomaly: answer.anomaly ?? "", order: answer.serial_order?.map(String) ?? [], cycle: cycle.map((edge) => ({ ...edge, moves: edge.ends.map((it) => (it === undefined ? null : place(it))) })) },
    about: txns.length < all.length ? `The log has ${all.length} transactions; these are ${edges.length ? "those of the cycle" : "the first ones"}.` : "",
  };
}

/** Who wrote what a move found, and how that is said. */
function found(it, moves, rows, place) {
  if (it.found !== undefined) return { writer: { txn: moves[it.found].txn, move: place(it.found) }, why: `${named(moves[it.found].txn)} wrote it` };
  if (it.kind !== "read" || it.value === null) return {};
  const own = moves.some((other) => other.txn === it.txn && other.kind === "write" && same([other.key, other.value], [it.key, it.value]));
  if (own) return { why: "It sees its own write" };
  if (rows.some((row) => same(row, [it.key, it.value]))) return { why: "" };
  return { why: writersOf(moves, it).length ? "Several have written this value" : "Nobody here wrote this value" };
}
