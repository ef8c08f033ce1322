"use strict";

/* ================================================================ the data */

const sheet = Story.text.parse(document.getElementById("data").textContent);
/** What is shown: the sheet, or of one with all levels the tree of one of them. */
let data = sheet.kind === "levels" ? sheet.trees[0] : sheet;
const $ = (id) => document.getElementById(id);
const linesOf = (text) => text.split("\n").filter((line) => line !== "");
const esc = (text) => String(text).replace(/[&<>"]/g, (it) => ({ "&": "&amp;", "<": "&lt;", ">": "&gt;", '"': "&quot;" })[it]);

/** An event with its reply: `a read 10 -> found 100`, without a number. */
function eventOf(line) {
  const [done, reply] = line.split(" -> ");
  const words = done.split(" ");
  const name = done === "detect" ? null : words.shift();
  return { name, op: words[0], args: words.slice(1), event: words.join(" "), reply, r: reply.split(" ") };
}

function versionOf(line) {
  const [, v, key, value, begin, bt, end, et] = /^version (\d+): key (\d+) value (\d+); ([0-9A-F]{16}) begin ([^;]*); ([0-9A-F]{16}) end (.*)$/.exec(line);
  const lock = /^lock readers (\d+) writer (\S+) no-more-reads (\S+)/.exec(et);
  return {
    line, v: Number(v), key, value, begin, bt, end, et,
    maker: /^transaction (\d+)/.exec(bt)?.[1] ?? null,
    made: /^time (\d+)/.exec(bt)?.[1] ?? null,
    ended: /^time (\d+)/.exec(et)?.[1] ?? null,
    readers: lock ? Number(lock[1]) : 0,
    writer: lock && lock[2] !== "none" ? lock[2] : null,
    noMore: lock?.[3] === "set",
  };
}

const listIn = (field) => { const words = field.split(" ").slice(1); return words[0] === "none" ? [] : words; };

function txnOf(line) {
  const [head, state, ...f] = line.split("; ");
  const [, id, name, level] = /^txn (\d+) (\S+): (\S+)$/.exec(head);
  const word = (at) => f[at].split(" ")[1];
  const time = (at) => (word(at) === "none" ? null : word(at));
  return {
    line, id, name, level, state, kind: state.split(" ")[0], cause: state.split(" ")[1] ?? "",
    begin: time(0), end: time(1), waits: Number(word(2)), commits: Number(word(3)), finished: word(4) === "set", doomed: word(5) === "set",
    reads: listIn(f[6]), writes: listIn(f[7]), buckets: listIn(f[8]), waiting: listIn(f[9]), dependents: listIn(f[10]),
  };
}

const bucketOf = (line) => ({ line, bucket: /^bucket (\d+)/.exec(line)[1], holders: listIn(line.split("; ")[1]) });

/* ================================================================ a run: the machine at each position */

/** Of pairs of a position and a thing, by position, the last thing up to a position, or null. */
function lastOf(list, position) {
  let [low, high] = [0, list.length];
  while (low < high) { const mid = (low + high) >> 1; if (list[mid][0] <= position) low = mid + 1; else high = mid; }
  return low === 0 ? null : list[low - 1][1];
}

class Run {
  /** `opening`, `waits`, `asked`: the state before the first step, who waits there, and who has asked. `steps`: objects of `line` (event
      and reply), `changed`, `gone`, `why`, `rule`, `sentence`, `definition`, `comes`, `sees`, `ends`, and `waits` where these have changed; all are texts. */
  constructor({ opening, waits, asked }, steps, done) {
    this.done = done;
    this.steps = steps.map((it) => ({ ...it, ...eventOf(it.line) }));
    this.last = steps.length;
    this.past = new Map();
    this.touched = [[]];
    this.waitsAt = [[0, waits]];
    for (const line of linesOf(opening)) this.keep(line, 0);
    steps.forEach((step, index) => {
      const at = index + 1;
      this.touched.push([]);
      for (const line of linesOf(step.changed)) this.keep(line, at);
      for (const subject of linesOf(step.gone)) this.put(subject, at, null);
      if (step.waits !== null) this.waitsAt.push([at, step.waits]);
    });
    this.txnIds = [...this.past.keys()].filter((it) => it.startsWith("txn ")).map((it) => it.slice(4));
    this.txnIds.sort((a, b) => a - b);
    this.versionIds = [...this.past.keys()].filter((it) => it.startsWith("version ")).map((it) => it.slice(8));
    this.bucketIds = [...this.past.keys()].filter((it) => it.startsWith("bucket "));
    this.names = new Map(this.txnIds.map((id) => [id, this.txn(id, 0).name]));
    this.ids = new Map([...this.names].map(([id, name]) => [name, id]));
    this.short = shortForms([...this.names.values()]);
    const acting = new Set(this.steps.map((it) => it.name));
    this.laneIds = this.txnIds.filter((id) => isTree || acting.has(this.names.get(id)) || this.past.get("txn " + id).length > 1);
    this.hasDetect = acting.has(null);
    this.follow(linesOf(asked));
    Object.assign(this, columnsOf(isTree ? [] : this.polls, this.last));
  }

  keep(line, at) {
    if (line.startsWith("clock")) this.put("clock", at, Number(line.slice(6)));
    else if (line.startsWith("version")) { const it = versionOf(line); this.put("version " + it.v, at, it); }
    else if (line.startsWith("txn")) { const it = txnOf(line); this.put("txn " + it.id, at, it); }
    else { const it = bucketOf(line); this.put("bucket " + it.bucket, at, it); }
  }

  put(subject, at, it) {
    let list = this.past.get(subject);
    if (!list) this.past.set(subject, (list = []));
    list.push([at, it]);
    if (at > 0) this.touched[at].push(subject);
  }

  get(subject, position) {
    const list = this.past.get(subject);
    return list ? lastOf(list, position) : null;
  }

  txn(id, position) { return this.get("txn " + id, position); }
  version(v, position) { return this.get("version " + v, position); }
  clock(position) { return this.get("clock", position); }

  /** Phases, waits, arrows and steps that only ask again of the whole run, found once. `asked`: the transactions that wait at the start. */
  follow(asked) {
    this.phases = new Map(this.txnIds.map((id) => [id, []]));
    this.waitings = new Map(this.txnIds.map((id) => [id, []]));
    this.arrows = Array.from({ length: this.last + 1 }, () => []);
    const open = new Map();
    this.polls = [];
    for (const id of this.txnIds) this.notePhase(id, 0);
    for (const line of asked) { const [id, kind] = line.split(" "); this.openWait(id, 0, kind, open); }
    this.steps.forEach((step, index) => {
      const at = index + 1;
      const who = step.name === null ? "detect" : this.ids.get(step.name);
      for (const id of linesOf(step.ends)) this.closeWait(id, at, who, open);
      for (const subject of this.touched[at]) if (subject.startsWith("txn ")) this.noteTxn(subject.slice(4), at, who);
      this.polls[at] = step.r[0] === "waiting" && open.has(who) && this.touched[at].length === 0;
      if (step.r[0] === "waiting") this.openWait(who, at, step.r[1] === "commits" ? "commits" : "waits", open);
    });
  }

  openWait(id, at, kind, open) {
    if (open.has(id)) return;
    const wait = { from: at, to: null, kind };
    open.set(id, wait);
    this.waitings.get(id).push(wait);
  }

  closeWait(id, at, who, open) {
    const wait = open.get(id);
    const now = this.txn(id, at);
    wait.to = at;
    open.delete(id);
    if (who !== id) this.arrow(at, who, id, now.kind === "aborted" || now.doomed ? "abort" : "free");
  }

  noteTxn(id, at, who) {
    this.notePhase(id, at);
    const [old, now] = [this.txn(id, at - 1), this.txn(id, at)];
    for (const it of now.dependents) if (!old.dependents.includes(it)) this.arrow(at, it, id, "depends");
    for (const it of old.dependents) if (!now.dependents.includes(it)) this.arrow(at, id, it, this.txn(it, at).doomed ? "abort" : "free");
    if (who === "detect" && now.kind === "aborted" && old.kind !== "aborted") this.arrow(at, who, id, "abort");
  }

  arrow(at, from, to, kind) {
    if (!this.arrows[at].some((it) => it.from === from && it.to === to)) this.arrows[at].push({ from, to, kind });
  }

  notePhase(id, at) {
    const it = this.txn(id, at);
    const kind = it.kind === "active" && it.finished ? "finished" : it.kind === "not" ? "none" : it.kind;
    const list = this.phases.get(id);
    if (list.at(-1)?.kind !== kind) list.push({ from: at, kind });
  }

  /** Who waits for whom at a position, as the program says it: for each pair and kind what the waits are by. */
  edges(position) {
    const edges = new Map();
    for (const line of linesOf(lastOf(this.waitsAt, position))) {
      const [from, to, what, number] = line.split(" ");
      const kind = what === "commit" ? "commits" : "waits";
      const key = `${from} ${to} ${kind}`;
      if (!edges.has(key)) edges.set(key, { from, to, kind, by: [] });
      edges.get(key).by.push(what === "version" ? `v${number}` : what !== "bucket" ? what : number === undefined ? "listed" : `bucket ${number}`);
    }
    return [...edges.values()];
  }
}
