// A story in a thumbnail, and the outcomes of all orders as bars. Pure.
import { cut, esc, grouped, wide } from "./text.mjs";
import { DEFS, S, colour, path, r1, rect, svg, text, title } from "./svg.mjs";
import { VERDICTS, verdictKind } from "./story.mjs";

const NONE = "–";

/** A whole story in a thumbnail: outlined reads, filled writes, hatched waits, ticks and crosses; with values where they have room. Its mark is put at a step by the page. */
export function mini(story, w, h, u) {
  const count = Math.max(story.columns.length, 1), column = w / count, lane = h / story.names.length, high = lane * 0.8, y = (t) => t * lane + lane * 0.1, size = Math.min(S * u, high * 0.9);
  const rules = story.names.map((_, t) => path(`M0 ${r1(y(t) + high / 2)}H${r1(w)}`, "rule")).join("");
  const waits = story.waits.map(({ t, from, to, by }) => {
    const until = by !== null && (to === null || by < to) ? by + 0.6 : to ?? count;
    return rect(from * column + 1, y(t) + high * 0.1, (until - from) * column - 2, high * 0.8, "hatch", 2);
  }).join("");
  const boxes = story.columns.map((it, index) => (column < 9 ? tiny(it, index * column, y(it.t), column - 0.5, high) : small(it, index * column, y(it.t), column, high, size))).join("");
  return svg(w, h, `the run at ${story.level || "its levels"}`, DEFS + rules + waits + boxes + `<line y2="100%" class="mark" visibility="hidden"/>`);
}

/** Where the mark of a thumbnail stands after `step` moves, as a part of its width; null at the start and at the end, where there is none. */
export const markAt = (story, step) => (step > 0 && step <= story.columns.length ? `${r1((100 * step) / story.columns.length)}%` : null);

function tiny({ kind, t }, x, y, w, h) {
  const kinds = { read: `faint f${colour(t)}`, scan: `faint f${colour(t)}`, write: `f${colour(t)}`, abort: "bad", commit: "inkf" };
  return rect(x, y, w, h, kinds[kind] ?? "none");
}

function small({ kind, t, value, by, rows }, x, y, w, h, size) {
  const own = colour(t), middle = x + w / 2, base = y + h / 2 + size * 0.36, box = [x + 1, y, w - 2, h];
  const said = (words, kinds) => (wide(words, size, 700) < w - 2 ? text(middle, base, size, words, kinds) : "");
  switch (kind) {
    case "read": return rect(...box, `box s${own}`, 3) + said(value ?? NONE, `b ${by === null ? "" : `f${colour(by)}`}`);
    case "scan": return rect(...box, `box s${own}`, 3) + said(rows.length, "b");
    case "write": return rect(...box, `f${own}`, 3) + said(value ?? NONE, "b on");
    case "skip": case "miss": case "refused": return rect(...box, "chip") + rect(...box, "ghost", 3);
    case "unknown": return rect(middle - size * 0.6, y, size * 1.2, h, "chip") + text(middle, base, size, "?", "b soft");
    case "commit": return rect(middle - size * 0.6, y, size * 1.2, h, "chip") + text(middle, base, size, "✓", `b f${own}`);
    case "abort": return rect(...box, "bad", 3) + text(middle, base, size, "✗", "b on");
    default: return "";
  }
}

// ---- outcomes

const isBroken = (outcome) => verdictKind(outcome.verdict) === "not" || outcome.breaks !== undefined && outcome.breaks !== null;

/** Outcomes in the order of their bars: those that are not serializable first, and of the others the commonest. */
export const sorted = (outcomes) => [...outcomes].sort((one, other) => isBroken(other) - isBroken(one) || other.orders - one.orders);

const rowsOf = ({ rows }) => rows.map(([key, value]) => `${key}=${value}`).join(" ");

/** An outcome in words. */
export function saidOutcome(outcome, { orders }) {
  const ends = outcome.ends.map(({ txn, end }) => `${txn} ${end}`).join(", "), broken = outcome.breaks ? `; breaks line ${outcome.breaks}` : "";
  return `${grouped(outcome.orders)} of ${grouped(orders)} orders: ${ends}; ${rowsOf(outcome)}; ${VERDICTS[verdictKind(outcome.verdict)]}${broken}`;
}

/** The height of a bar with its words, in the size of ordinary text. */
export const BAR = 1.45;

// How names are cut: to their beginning, or to their first letter and their end, as the machine's panels have them where there is no room for a sign.
const CUTS = [(name) => `${name.slice(0, 2)}.`, (name) => `${name[0]}…${name.slice(-1)}`, (name) => `${name[0]}…${name.slice(-2)}`, (name) => name[0] + name.slice(-1)];

/** The names before the marks of a bar, in so much room with `rest` after them: whole if they are short beside the bars, cut so that they differ, or none. */
function namesIn(names, widthOf, room, rest) {
  const sum = (all) => all.reduce((so, it) => so + widthOf(it), 0), cuts = CUTS.map((cutOf) => names.map((name) => (name.length > 3 ? cutOf(name) : name)));
  if (sum(names) <= 0.4 * room) return names;
  return cuts.find((all) => new Set(all).size === all.length && sum(all) + rest <= room) ?? names.map(() => "");
}

const marked = (name, mark) => `${name} ${mark}`.trim();

/** A bar for each outcome, as long as its share of the orders; each names an order that has it. */
export function bars(counted, names, w, u, isHere = () => false) {
  const size = S * u, high = BAR * u, all = sorted(counted.outcomes), most = Math.max(...all.map((it) => it.orders)), alike = new Set(all.map((it) => it.ends.map(({ end }) => end).join())).size < all.length;
  const isOther = (outcome) => verdictKind(outcome.verdict) === "other", countOf = (outcome) => `${isBroken(outcome) ? "✗ " : ""}${grouped(outcome.orders)}`;
  const widthOf = (name) => wide(marked(name, "✓"), size, 700) + 0.45 * u, counts = Math.max(...all.map((it) => wide(countOf(it), size, 700))), short = namesIn(names, widthOf, w, counts + 1.9 * u);
  const widths = short.map(widthOf), left = widths.reduce((sum, it) => sum + it, 0.4 * u);
  const afterOf = (outcome) => isBroken(outcome) || isOther(outcome) ? "" : alike ? rowsOf(outcome) : outcome.ends.find(({ end }) => end !== "committed")?.end.replace("aborted ", "") ?? "";
  // A bar leaves room for the words after it, where a short one does.
  const mostOf = (outcome) => (w - left - wide(countOf(outcome), size, 700) - wide(afterOf(outcome), size) - 0.9 * u) * most / outcome.orders;
  const room = Math.max(Math.min(2 * u, w - left - counts - 0.5 * u), Math.min((w - left - wide(`✗ ${grouped(most)}`, size, 700)) * 0.5, ...all.map(mostOf).filter((it) => it >= 2 * u)));
  return svg(w, high * all.length, "outcomes of all orders", DEFS + all.map((outcome, index) => {
    const y = index * high, base = y + 1.02 * u, bad = isBroken(outcome), length = Math.max(2, room * outcome.orders / most), words = saidOutcome(outcome, counted), after = afterOf(outcome), count = countOf(outcome);
    const x = left + length + 0.3 * u, next = x + wide(count, size, 700) + 0.5 * u;
    const marks = outcome.ends.map(({ end }, t) => text(0.2 * u + widths.slice(0, t).reduce((sum, it) => sum + it, 0), base, size, marked(short[t], end === "committed" ? "✓" : "✗"), end === "committed" ? `b f${colour(t)}` : "badt", "start"));
    return `<g data-order="${esc(outcome.first?.join(" ") ?? "")}" role="button" tabindex="0" aria-label="${esc(words)}">${title(words)}${rect(0, y, w, high - 1, isHere(outcome) ? "band" : "chip", 3)}${marks.join("")}` +
      rect(left, y + 0.28 * u, length, 0.85 * u, bad ? "bad" : isOther(outcome) ? "hatch" : "slate", 2) + text(x, base, size, cut(count, w - x, size, 700), `b ${bad ? "badt" : ""}`, "start") +
      (wide(after, size) <= w - next ? text(next, base, size, after, "soft", "start") : "") + "</g>";
  }).join(""), "group");
}

/** Whether a story has an outcome: its ends, its rows and its verdict. */
export const hasOutcome = (story) => (outcome) => verdictKind(outcome.verdict) === story.verdict.kind && outcome.ends.every(({ end }, t) => end === endOf(story, t)) &&
  outcome.rows.every(([key, value]) => story.tracks.find((it) => it.key === key)?.segments.at(-1).value === value);

/** How a transaction ends, in the words of outcomes. */
export function endOf({ ends, columns }, t) {
  if (ends[t] !== "abort") return ends[t] === "commit" ? "committed" : "unended";
  return `aborted ${columns.find((it) => it.t === t && it.kind === "abort").cause}`;
}
