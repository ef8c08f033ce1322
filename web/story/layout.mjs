// Where the lanes, columns and rows of a story stand. Pure. Lengths are in pixels; `u` is the size of ordinary text.
import { wide } from "./text.mjs";
import { L, M, S, XL, clamp } from "./svg.mjs";

/** What a box says: its first line, longest first, and its value. */
export function wordsOf(column) {
  const { kind, key, value } = column;
  switch (kind) {
    case "read": return { tops: [`read ${key}`, `r ${key}`, `${key}`], value: value ?? "–" };
    case "scan": return { tops: [`scan ${column.bucket ?? ""}`, "scan"], value: column.rows.map(([row, its]) => `${row}=${its}`).join(" ") || "–" };
    case "write": return { tops: [`${key} :=`, `${key}:=`, `${key}`], value: value ?? "–" };
    case "miss": return { tops: [`${key} :=`, `${key}`], value: column.op === "insert" ? "exists" : "no row" };
    case "skip": return { tops: ["left out", "out"], value: `${key ?? ""}` };
    case "refused": return { tops: ["refused", "ref."], value: "⊘" };
    case "commit": return { tops: ["commit", ""], value: "✓" };
    case "unknown": return { tops: ["commit", ""], value: "?" };
    case "abort": return { tops: stopped(column), value: "✗" };
    default: return { tops: [""], value: "" };
  }
}

/** What an abort stopped, longest first: an end, a scan, a read or a write. */
function stopped({ op, key, bucket }) {
  if (!op) return ["abort", ""];
  if (op === "scan") return [`scan ${bucket}`, "scan"];
  return op === "read" ? [`read ${key}`, `r ${key}`, `${key}`] : [`${key} :=`, `${key}`];
}

/** The least width of a column's box with values of this size. */
function need(column, size, isNarrow) {
  const { tops, value } = wordsOf(column), most = column.kind === "scan" ? 7 : 12, isTight = isNarrow && size === S;
  if (column.kind === "wait") return isTight ? 1.8 : isNarrow ? 2.2 : 3;
  if (column.kind === "commit" || column.kind === "unknown") return isTight ? 1.4 : isNarrow ? 1.7 : 2.4;
  return clamp(1.2, Math.max(wide(tops.at(-1), S), wide(value, column.kind === "scan" ? S : size, 700)) + (isNarrow ? 0.3 : 0.8), most);
}

/** A slot for each place of the order, and for each column there that only ends a wait: the columns of several stories of one order share them. */
function slotsOf(stories) {
  const all = stories.map(({ columns }) => {
    let [place, late] = [-2, 0];
    return columns.map((column, index) => {
      const own = stories.length === 1 ? index : column.place;
      late = own === place ? late + 1 : 0;
      place = own;
      return own * 1000 + late;
    });
  });
  const slots = new Map([...new Set(all.flat())].sort((a, b) => a - b).map((slot, index) => [slot, index]));
  return { count: slots.size, of: all.map((its) => its.map((slot) => slots.get(slot))) };
}

/** The middles of the slots, as in a score: two boxes of one lane don't touch; those of different lanes may overlap in width, and keep their order. */
function spread(stories, slots, widths, least) {
  const xs = [], last = stories.map(() => new Map()), columnAt = slots.of.map((its) => new Map(its.map((slot, index) => [slot, index])));
  for (let slot = 0; slot < slots.count; slot++) {
    let x = slot ? xs[slot - 1] + least : 0;
    stories.forEach(({ columns }, which) => {
      const index = columnAt[which].get(slot);
      if (index === undefined) return;
      const before = last[which].get(columns[index].t);
      x = Math.max(x, before === undefined ? widths[which][index] / 2 : xs[slots.of[which][before]] + (widths[which][before] + widths[which][index]) / 2);
      last[which].set(columns[index].t, index);
    });
    xs[slot] = x;
  }
  return xs;
}

const end = (stories, slots, widths, xs) => Math.max(0, ...stories.flatMap((_, which) => widths[which].map((width, index) => xs[slots.of[which][index]] + width / 2)));

/** Ways to place the columns, the roomiest first: equal columns, boxes of one width, boxes as wide as they must be, with smaller values. */
function* ways(stories, slots, room, u, isNarrow) {
  const even = (width) => stories.map(({ columns }) => columns.map(() => width)), needs = (size) => stories.map(({ columns }) => columns.map((it) => need(it, size, isNarrow) * u));
  const most = (size) => Math.max(1, ...needs(size).flat()), column = Math.min(8 * u, room / Math.max(slots.count, 1));
  for (const size of isNarrow ? [L] : [XL, L]) if (column >= Math.max(most(size), (isNarrow ? 2.6 : 3.4) * u)) yield { size, widths: even(column), least: column };
  for (const size of isNarrow ? [L, M] : [XL, L, M]) {
    const least = Math.max(most(size), 2.6 * u);
    for (let width = Math.max(4 * u, least); width >= least; width -= 0.1 * u) yield { size, widths: even(width), least: 1.2 * u };
  }
  for (const size of [L, M, S]) for (const least of [1, 0.6]) yield { size, widths: needs(size), least: least * u };
  if (isNarrow) yield { size: S, widths: needs(S), least: 0.3 * u, isTight: true };
}

/** Where things stand in a room of `w` and `h`. Columns are shared by lanes and rows, and by the stories of `all`; lanes take the height that the rows leave. `boxes` keeps
 *  what the lanes draw of each column, which is the same after each step. */
export function layout(story, { w, h, u, all = [story], rows = true }) {
  const isNarrow = w < 34 * u, longest = Math.max(...story.names.map((name) => wide(name, 1, 700)), ...(rows ? story.tracks.map(({ key }) => wide(key, 1, 700)) : [])), nameSize = isNarrow && longest > 2.5 ? S : M;
  const always = rows && story.always.length ? wide("always", S, 700) * u + 0.6 * u : 0;
  const gutter = clamp(Math.max(2.9 * u, always), longest * nameSize * u + (isNarrow ? 0.3 : 1.2) * u, Math.max(w * 0.26, always)), tail = (isNarrow ? 0.4 : 3.2) * u;
  const slots = slotsOf(all), own = slots.of[all.indexOf(story)];
  let way, xs, length, pad = (isNarrow ? 1.2 : 2.6) * u, room = w - gutter - pad - tail;
  for (way of ways(all, slots, room, u, isNarrow)) {
    if (way.isTight) [pad, room] = [0.4 * u, room + pad - 0.4 * u];
    xs = spread(all, slots, way.widths, way.least);
    length = end(all, slots, way.widths, xs);
    if (length <= room + 0.5) break;
  }
  const first = way.widths.flat()[0] ?? 0, isEven = way.least === first, boxes = way.widths.flatMap((its, which) => its.map((width, index) => ({ x: xs[slots.of[which][index]] - first / 2, width })));
  const stretches = boxes.filter(({ x }) => x > 1).map(({ x, width }) => (room - (first + width) / 2) / x), stretch = isEven || length >= room ? 1 : clamp(1, Math.min(2, ...stretches), 2);
  const widths = way.widths[all.indexOf(story)], place = (x) => pad + first / 2 + x * stretch;
  const mid = (index) => place((xs[own[index]] ?? (xs.at(-1) ?? 0) + first) - first / 2), most = Math.max(pad, ...boxes.map(({ x, width }) => place(x) + width / 2));
  const left = (index) => mid(index) - (widths[index] ?? first) / 2, right = (index) => (index ? mid(index - 1) + (widths[index - 1] ?? first) / 2 : pad);
  const high = heights(story, { h, u, rows, isNarrow });
  return { w: Math.max(most + tail, w - gutter), u, count: story.columns.length, gutter, pad, nameSize, size: high.high > 3.6 * u ? way.size : Math.min(way.size, L), isNarrow, mid, left, right,
    width: (index) => widths[index] ?? first, boxes: [], ...high };
}

/** Heights: of a lane, of its boxes, of a row. */
function heights(story, { h, u, rows, isNarrow }) {
  const lanes = story.names.length, count = rows ? story.tracks.length + story.always.length : 0, top = (story.views.length ? 1.5 : 0.4) * u;
  const least = (lanes > 5 ? 3.3 : isNarrow ? 4.4 : rows ? 3.7 : 2.7) * u, isShort = count > 6 || top + (2.05 * count + 1) * u + lanes * least > h;
  const row = (isShort ? 1.95 : 2.05) * u, low = rows && count ? top + row * count + u : 0;
  const lane = clamp(least, (h - low) / lanes, 9 * u), high = clamp(2.5 * u, lane * (isNarrow ? 0.58 : 0.62), 4.6 * u);
  return { lane, high, gap: lane - high, row, top, y: (t) => t * lane + (lane - high) / 2 };
}
