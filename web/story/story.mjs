// A play, as `--json` has it -> a story: what is drawn of it, column by column. Pure.
import { list, sentences } from "./text.mjs";

const DRAWN = /^(read|scan|write|miss|skip|wait|commit|abort|unknown|refused)$/;
const ENDS = /^(commit|abort|unknown)$/;
const named = (name) => `{${name}}`;
const unique = (all) => [...new Set(all)];

/** The story of a play. `text` is that of its schedule: the words of conditions, and of what is to hold, are in it. */
export function storyOf(play, text = "") {
  const { columns, at } = columnsOf(play);
  const story = {
    names: play.names, levels: play.levels, level: unique(play.levels).length === 1 ? play.levels[0] : "", order: play.order ?? null, columns,
    ends: play.names.map((name, t) => columns.findLast((it) => it.t === t && ENDS.test(it.kind))?.kind ?? null),
  };
  const lines = text.split("\n").map((line) => line.replace(/#.*/, ""));
  story.waits = waitsOf(play, columns, at);
  story.views = viewsOf(play, columns, at);
  story.tracks = tracksOf(play, columns);
  story.always = alwaysOf(play, columns, lines);
  story.verdict = verdictOf(play, story, at);
  sayMore(story, lines);
  placeInOrder(story);
  return story;
}

/** A column for each move that is drawn; and `at`, the column of a move by its number from 1: of one that isn't drawn, its transaction's next. */
function columnsOf({ moves, names }) {
  const columns = [], places = moves.map((move) => {
    if (!DRAWN.test(move.kind)) return null;
    columns.push({ ...move, t: names.indexOf(move.txn), from: null, by: null, frees: [], breaks: null });
    return columns.length - 1;
  });
  const at = (number) => {
    const { txn } = moves[number - 1] ?? {}, next = places.findIndex((place, index) => index >= number - 1 && place !== null && moves[index].txn === txn);
    return next < 0 ? null : places[next];
  };
  for (const column of columns) {
    if (!column.writer) continue;
    column.from = at(column.writer.move);
    column.by = names.indexOf(column.writer.txn);
  }
  return { columns, at };
}

/** Each wait, from its column to that of the end that it waited for; `by` is the column that freed it. */
function waitsOf({ moves, names }, columns, at) {
  const waits = columns.flatMap((column, from) => {
    if (column.kind !== "wait") return [];
    const to = columns.findIndex((it, index) => index > from && it.t === column.t && ENDS.test(it.kind));
    const keys = unique(column.for.map((it) => it.key).filter((key) => key !== undefined && key !== null));
    return [{ t: column.t, from, to: to < 0 ? null : to, by: null, for: column.for.map((it) => names.indexOf(it.txn)), keys }];
  });
  moves.forEach((move, index) => {
    for (const number of move.ends ?? []) {
      const wait = waits.find((it) => it.from === at(number)), by = at(index + 1);
      if (!wait || by === null || (wait.to !== null && wait.to <= by)) continue;
      wait.by = by;
      columns[by].frees.push(wait.t);
    }
  });
  return waits;
}

/** Where each transaction looks that reads a snapshot: the column before which it began. */
function viewsOf({ moves, names, levels }, columns, at) {
  return moves.flatMap((move, index) => {
    const t = names.indexOf(move.txn);
    if (move.kind !== "begin" || levels[t] !== "snapshot" || at(index + 1) === null) return [];
    const next = moves.findIndex((it, other) => other > index && DRAWN.test(it.kind));
    return [{ t, at: at(next + 1) }];
  });
}

/** The keys whose committed value a column changes, each with its value then; null for a row that is gone. */
function changesOf({ committed }, before) {
  if (!committed) return [];
  const now = new Map(committed), keys = unique([...before.keys(), ...now.keys()]);
  return keys.filter((key) => before.get(key) !== now.get(key)).map((key) => [key, now.get(key) ?? null]);
}

/** A track for each key: `segments` of committed values, and `pending` ones that their transaction has written and not committed. */
function tracksOf({ rows }, columns) {
  if (!rows) return [];
  const tracks = new Map(rows.map(([key, value]) => [key, trackOf(key, value)]));
  let before = new Map(rows);
  columns.forEach((column, index) => {
    const { t, kind, key } = column;
    if (kind === "write") {
      if (!tracks.has(key)) tracks.set(key, trackOf(key, null));
      const { pending } = tracks.get(key), before = pending.find((it) => it.t === t && it.to === null);
      if (before) Object.assign(before, { to: index, end: "own" });
      pending.push({ t, from: index, to: null, value: column.value, end: null });
    }
    if (!ENDS.test(kind)) return;
    for (const { pending } of tracks.values()) for (const it of pending) if (it.t === t && it.to === null) Object.assign(it, { to: index, end: kind });
    for (const [changed, value] of changesOf(column, before)) {
      const { segments } = tracks.get(changed);
      segments.at(-1).to = index;
      segments.push({ from: index, to: null, value, t });
    }
    before = new Map(column.committed ?? before);
  });
  return [...tracks.values()].sort(({ key: one }, { key: other }) => (typeof one === "number" && typeof other === "number" ? one - other : 0));
}

const trackOf = (key, value) => ({ key, segments: [{ from: 0, to: null, value, t: null }], pending: [] });

/** The words of a condition with values in place of `@KEY` and of names, as far as they have one. */
const filled = (words, valueOf) => words.replace(/@?[\p{L}_][\p{L}\p{N}_]*|@\d+/gu, (word) => valueOf(word) ?? (word[0] === "@" ? "–" : word));

/** A value by `@KEY` among pairs of keys and values. */
const valueIn = (pairs, word) => pairs.find(([key]) => String(key) === word.slice(1))?.[1];

/** What is to hold, with the columns from which on it does or doesn't, and its words with the values of the committed rows. */
function alwaysOf({ always = [], rows, names }, columns, lines) {
  const done = new Set();
  let now = rows ?? [];
  const all = always.map(({ line }) => ({ line, text: (lines[line - 1] ?? "").replace(/^\s*\S+\s*/, "").trim(), states: [] }));
  const valueOf = (word) => (word[0] === "@" ? valueIn(now, word) : names.includes(word) ? Number(done.has(word)) : undefined);
  const note = (judged, from) => judged.forEach(({ holds }, index) => {
    const { text, states } = all[index], words = filled(text, valueOf), last = states.at(-1);
    if (!last || last.holds !== holds || last.words !== words) states.push({ from, holds, words });
  });
  note(always, 0);
  columns.forEach((column, index) => {
    if (column.kind !== "commit" || !column.always) return;
    done.add(column.txn);
    now = column.committed;
    const held = all.map(({ states }) => states.at(-1).holds);
    note(column.always, index);
    column.breaks = all.find(({ states }, which) => held[which] && !states.at(-1).holds)?.line ?? null;
  });
  return all;
}

/** Adds to the reasons what only the text and later moves say. */
function sayMore({ columns, always, names }, lines) {
  columns.forEach((column, index) => {
    const said = [column.why];
    if (column.kind === "skip") said.push(whySkipped(column, sawBefore(column, index, columns), lines));
    if (column.breaks !== null) {
      const { text, states } = always.find((it) => it.line === column.breaks);
      said.push(`What is to hold is broken: ${text} is now ${states.findLast((it) => it.from <= index).words}`);
    }
    if (column.frees.length) said.push(`The wait of ${list(unique(column.frees).map((t) => named(names[t])))} is over`);
    column.why = sentences(said);
  });
}

/** What a transaction has last seen or written at each key, before a column. */
function sawBefore({ t }, index, columns) {
  const saw = new Map();
  for (const it of columns.slice(0, index)) {
    if (it.t !== t) continue;
    if (it.kind === "scan") for (const [key, value] of it.rows) saw.set(key, value);
    else if (it.kind === "read" || it.kind === "write") saw.set(it.key, it.value ?? null);
  }
  return [...saw];
}

function whySkipped({ line }, saw, lines) {
  const words = (lines[line - 1] ?? "").split(/\sif\s/)[1]?.trim();
  return words ? `Its condition doesn’t hold: ${words} is ${filled(words, (word) => (word[0] === "@" ? valueIn(saw, word) : undefined))}` : "Its condition doesn’t hold";
}

/** The place in the order of the move that each column makes; what ends a wait makes none. By it the plays of one order at several levels are compared. */
function placeInOrder({ columns, names, order }) {
  const places = names.map((name) => (order ?? []).flatMap((it, index) => (it === name ? [index] : []))), count = names.map(() => 0), waited = new Set();
  let last = -1;
  for (const column of columns) {
    column.isLate = waited.has(column.t) && ENDS.test(column.kind);
    if (!column.isLate) last = Math.max(last, places[column.t][count[column.t]++] ?? last);
    if (column.kind === "wait") waited.add(column.t);
    column.place = last;
  }
}

// ---- the verdict

const KINDS = [[/unknown/, "unknown"], [/^(not ser|fails)/, "not"], [/another order/, "other"], [/^(serial|holds)/, "serial"]];

/** The kind of a verdict, by its words in a text or in JSON: of the committed transactions of a run, or of a log. */
export const verdictKind = (words = "") => KINDS.find(([form]) => form.test(words))?.[1] ?? "unknown";

/** What a verdict is called, by its kind. */
export const VERDICTS = { not: "not serializable", other: "serializable in another order", serial: "serializable", unknown: "not judged" };

function verdictOf({ together = {}, breaks = null, names, kind: what, level }, story, at) {
  const kind = verdictKind(together.verdict), order = (together.order ?? []).map((name) => names.indexOf(name)), out = names.filter((name, t) => story.ends[t] === "abort");
  const tail = out.length && kind !== "not" ? `${list(out.map(named))} aborted: as if ${out.length > 1 ? "they" : "it"} had never begun.` : "";
  const edges = kind === "not" ? (together.cycle ?? []).map((edge) => edgeOf(edge, story, at)) : [];
  const isWeaker = what === "log" && level !== "serializable" && kind !== "unknown";
  const say = isWeaker ? `${kind === "not" ? "Fails" : "Holds"} at ${level}` : sayVerdict(kind, order.map((t) => named(names[t])), story);
  return { kind, order, edges, tail, breaks, name: together.anomaly ?? "", say };
}

function sayVerdict(kind, order, { ends }) {
  const then = order.join(", then ");
  if (kind === "not") return "Not serializable";
  if (kind === "unknown") return "Not judged";
  if (!ends.includes("commit")) return "Nobody committed";
  if (kind === "other") return `Serializable, but only in another order: ${then}`;
  return `Serializable${order.length ? `: as if ${then}${order.length === 1 ? " alone" : ""}` : ""}`;
}

/** An edge of the cycle, with its sentence and the columns at its two ends. */
function edgeOf(edge, { names, columns }, at) {
  const { kind, key, moves = [] } = edge, [from, to] = [edge.from, edge.to].map((name) => names.indexOf(name));
  const [one, other] = [edge.from, edge.to].map((name) => (name ? named(name) : "the opening rows")), then = `${one}, then ${other}.`;
  const says = {
    own: `${(edge.words ?? "").replace(/ \(operation \d+\)/g, "").replace(edge.from, () => one)}: there is no time at which both are right.`,
    rw: `${one} read ${key} = ${edge.read ?? "nothing"} before ${other} wrote it: ${then}`,
    wr: `${other} read what ${one} wrote to ${key}: ${then}`,
    ww: `${other} wrote ${key} after ${one}: ${then}`,
  };
  const [a, b] = moves.length === 2 ? moves.map((it) => (it === null ? null : at(it))) : endsOf(edge, columns, from, to), isKnown = edge.from !== null && edge.to !== null;
  return { kind: kind === "own" ? "twice" : kind, key, from, to, a: from < 0 ? null : a, b: to < 0 ? null : b, say: isKnown && says[kind] ? says[kind] : `${edge.words}.` };
}

/** The columns at the two ends of an edge that names none: by its kind, its key and what was read. */
function endsOf({ kind, key, read, words = "" }, columns, from, to) {
  const workOf = (t) => columns.flatMap((it, index) => (it.t === t && /^(read|scan|write|miss)$/.test(it.kind) ? [index] : []));
  if (kind === "own") {
    const own = workOf(from), [one, other] = [...words.matchAll(/operation (\d+)/g)].map((it) => own[it[1] - 1]);
    return [one ?? own[0], other ?? own.at(-1)];
  }
  const isRead = (it) => it.kind === "scan" || (it.key === key && (it.kind === "miss" || it.kind === "read")), isWrite = (it) => it.kind === "write" && it.key === key;
  const last = (t, fits) => workOf(t).findLast((index) => fits(columns[index])) ?? null;
  const reads = (t) => last(t, (it) => isRead(it) && (it.kind !== "read" || it.value === (read ?? it.value))) ?? last(t, isRead);
  return [kind === "rw" ? reads(from) : last(from, isWrite), kind === "wr" ? reads(to) : last(to, isWrite)].map((it, index) => it ?? workOf([from, to][index]).at(-1) ?? null);
}

/** A story's end in a few words. */
export function shortVerdict({ verdict, names, ends }) {
  const out = names.filter((name, t) => ends[t] === "abort"), { kind, order } = verdict;
  if (kind === "not" || verdict.breaks !== null) return kind === "not" ? VERDICTS.not : "broken";
  if (out.length) return `${out.length > 2 ? out.length : out.join(", ")} aborted`;
  if (!order.length || order.length > 3) return kind === "unknown" ? "" : VERDICTS[kind];
  return `${kind === "other" ? "only " : ""}as if ${order.map((t) => names[t]).join(", ")}`;
}

// ---- one order at several levels

/** The position in another story of the same order at which its moves are made that are made at a position of this one. */
export function samePlace(from, position, to) {
  if (position > from.columns.length) return to.columns.length + 1;
  if (to === from || position === 0) return position;
  if (position === from.columns.length) return to.columns.length;
  return to.columns.findLastIndex((it) => !it.isLate && it.place <= from.columns[position - 1].place) + 1;
}

// ---- the machine's steps

/** The machine's step after so many moves: the last one of the latest move before the next one begins, and at the verdict the last of all. */
export function stepAfter({ columns }, moves) {
  const isEnd = moves > columns.length, own = columns.slice(0, moves).filter(({ steps }) => steps.length).slice(isEnd ? 0 : -1), next = columns.slice(moves);
  return Math.min(Math.max(0, ...own.flatMap(({ steps }) => steps)), ...next.flatMap(({ steps }) => steps.map((it) => it - 1)));
}

/** How many moves are begun after a step of the machine. */
export const movesAt = ({ columns }, step) => columns.findLastIndex(({ steps }) => steps.some((it) => it <= step)) + 1;
