// The lanes of a story: its boxes, waits, arrows, and the cycle of its verdict. Pure.
import { cut, esc, fitting, plain, wide } from "./text.mjs";
import { DEFS, L, M, S, XL, clamp, colour, curved, head, join, path, pointAt, r1, rect, svg, text, title } from "./svg.mjs";
import { wordsOf } from "./layout.mjs";

const ORDINALS = ["1st", "2nd", "3rd"];

/** The names of the lanes, and at the end the places in the serial order. */
export function names(story, at, step) {
  const isEnd = step > at.count, { order, kind } = story.verdict, size = at.nameSize * at.u;
  const parts = story.names.map((name, t) => {
    const y = at.y(t) + at.high / 2, place = isEnd && kind !== "not" ? order.indexOf(t) : -1, isOut = isEnd && story.ends[t] === "abort", isTwo = isOut || (place >= 0 && order.length > 1);
    const under = isOut ? text(2, y + 1.05 * at.u, S * at.u, fitting(["aborted", "out"], at.gutter - 4, S * at.u), "soft", "start")
      : isTwo ? text(2, y + 1.05 * at.u, S * at.u, ORDINALS[place] ?? `${place + 1}th`, "b", "start") : "";
    return `<g>${title(name)}${text(2, y + (isTwo ? -0.1 : 0.35) * at.u, size, cut(name, at.gutter - 4, size, 700), `b f${colour(t)}`, "start")}${under}</g>`;
  });
  return svg(at.gutter, at.lane * story.names.length, "transactions", parts.join(""));
}

// ---- boxes

/** Two lines in a box: a small one, and a large one in the largest size that has room. */
function lines(column, at, box, tops, value, [topKind, valueKind], most = at.size) {
  const { u } = at, room = box.w - (at.isNarrow ? 2 : 4), size = [XL, L, M, S].find((it) => it <= most && wide(value, it * u, 700) <= room) ?? S, isLarge = size > L;
  const top = fitting(tops, room, S * u), middle = box.y + at.high / 2;
  if (top === "") return text(box.x + box.w / 2, middle + 0.36 * size * u, size * u, cut(value, room, size * u, 700), valueKind);
  return text(box.x + box.w / 2, middle - (isLarge ? 0.6 : 0.28) * u, S * u, top, topKind) +
    text(box.x + box.w / 2, middle + (isLarge ? 1.2 : 0.98) * u, size * u, cut(value, room, size * u, 700), valueKind);
}

/** The rows that a scan found, as many as the box has lines for. */
function scanned(column, at, box) {
  const { u } = at, most = Math.max(1, Math.floor((at.high - 1.3 * u) / (0.95 * u))), all = column.rows.map(([key, value]) => `${key}=${value}`);
  const few = all.length > most ? [column.rows.map(([key]) => key).join(" "), `${all.length} rows`].slice(0, most) : all.length ? all : ["–"];
  const top = box.y + at.high / 2 - few.length * 0.475 * u, x = box.x + box.w / 2;
  return text(x, top + 0.3 * u, S * u, fitting(wordsOf(column).tops, box.w - 4, S * u), `f${colour(column.t)}`) +
    few.map((line, index) => text(x, top + (1.25 + index * 0.95) * u, S * u, cut(line, box.w - 4, S * u, 700), "b")).join("");
}

function boxOf(column, at, index) {
  const { u } = at, gap = at.isNarrow ? 1 : at.width(index) < 3.2 * u ? 1.5 : 3, box = { x: at.left(index) + gap, y: at.y(column.t), w: at.width(index) - 2 * gap }, own = colour(column.t), { tops, value } = wordsOf(column);
  const frame = (kind, round = 0.35 * u) => rect(box.x, box.y, box.w, at.high, kind, round), said = (kinds, most) => lines(column, at, box, tops, String(value), kinds, most);
  switch (column.kind) {
    case "read": return frame(`box s${own}`) + said([`f${own}`, column.by === null ? "b" : `b f${colour(column.by)}`]);
    case "scan": return frame(`box s${own}`) + scanned(column, at, box);
    case "write": {
      const whole = `${column.key} := ${value}`, size = at.size * u;
      return frame(`f${own}`) + (wide(whole, size, 700) < box.w - 4 ? text(box.x + box.w / 2, box.y + at.high / 2 + 0.36 * size, size, whole, "b on") : said(["on", "b on"]));
    }
    case "miss": return frame("ghost") + said(["soft", "b soft"], M);
    case "skip": return frame("ghost") + said(["soft", "soft strike"], L);
    case "refused": return frame("ghost") + said(["soft", "b soft"], L);
    case "commit": return frame(`box s${own}`, at.high / 2) + said([`f${own}`, `b f${own}`]);
    case "unknown": return frame("ghost", at.high / 2) + said(["soft", "b soft"]);
    case "abort": return frame("bad") + said(["on", "b on"]);
    default: return "";
  }
}

// ---- waits and arrows

/** A wait: one hatched bar, from the first time that the end was refused to the commit or abort that freed it. */
function waitBar(story, at, wait, step) {
  const { u } = at, isFree = wait.by !== null && wait.by < step && (wait.to === null || wait.by < wait.to), isOver = wait.to !== null && wait.to < step;
  const to = Math.min(isFree ? at.mid(wait.by) + 0.5 * u : Infinity, isOver ? at.left(wait.to) : at.right(Math.min(step, at.count)));
  const x = at.left(wait.from) + 3, w = Math.max(to - x - 3, 0.6 * u), h = at.high * 0.78, y = at.y(wait.t) + at.high * 0.11, who = wait.for.map((t) => story.names[t]).join(", "), size = S * u;
  const all = `waits for ${who}`, long = wait.keys.length && wait.for.length === 1 ? `${all}, which read ${wait.keys.join(", ")}` : all;
  const said = [[long], [all], ["waits", `for ${who}`]].find((lines) => lines.every((it) => wide(it, size, 700) <= w - 0.8 * u)), bar = rect(x, y, w, h, "hatch", 0.3 * u);
  // What has no room in the bar stands under it.
  if (!said) return bar + text(Math.max(0, Math.min(x, at.w - wide(all, size, 700) - 2)), y + h + 0.85 * u, size, cut(all, at.w, size, 700), "b halo", "start");
  const middle = x + Math.min(w / 2, Math.max(...said.map((it) => wide(it, size, 700))) / 2 + 0.3 * u);
  return bar + said.map((it, index) => text(middle, y + h / 2 + (said.length === 1 ? 0.27 : index ? 0.8 : -0.2) * u, size, it, "b halo")).join("");
}

/** Where a column's arrows are drawn: in a long story of the step's column alone. */
const isNear = (at, index, step) => index < step && (at.count <= 30 || index === step - 1);

/** Arrows from the writes to the reads that found them. */
const links = (story, at, step) => story.columns.map((column, index) => {
  if (!/read|scan/.test(column.kind) || column.from === null || column.by === column.t || !isNear(at, index, step)) return "";
  const it = join(story, at, column.from, index);
  return path(curved(it.curve), `link s${colour(column.by)}`) + head(...it.tip, it.isDown, it.size, `f${colour(column.by)}`);
}).join("");

/** Dashed arrows from the ends of transactions to the waits that they freed. */
const frees = (story, at, step) => story.waits.map((wait) => {
  if (wait.by === null || !isNear(at, wait.by, step)) return "";
  const from = story.columns[wait.by].t, isDown = wait.t > from, y = at.y(from) + (isDown ? at.high : 0), to = at.y(wait.t) + at.high * (isDown ? 0.11 : 0.89);
  return path(`M${r1(at.mid(wait.by))} ${r1(y)}V${r1(to)}`, "ghost") + head(at.mid(wait.by), to, isDown, 0.5 * at.u, "inkf");
}).join("");

// ---- the cycle

/** The columns that the cycle is made of. */
const inCycle = (story) => new Set(story.verdict.edges.flatMap(({ a, b }) => [a, b]));

/** How far a label at a point is from boxes, other labels, arrow heads and the edges of the picture. It may rather cover a box that has faded. */
function clearance([x, y], [w, h], story, at, used, curves) {
  const kept = inCycle(story), boxes = story.columns.map((column, index) => {
    const free = Math.max(Math.abs(at.mid(index) - x) - (at.width(index) + w) / 2, Math.abs(at.y(column.t) + at.high / 2 - y) - (at.high + h) / 2);
    return kept.has(index) ? free : Math.max(free, -0.25 * at.u);
  });
  const labels = used.map((it) => Math.max(Math.abs(it.x - x) - (it.w + w) / 2 - 4, Math.abs(it.y - y) - h - 3));
  const tips = curves.map(({ tip }) => Math.max(Math.abs(tip[0] - x) - w / 2 - 0.7 * at.u, Math.abs(tip[1] - y) - h / 2 - 0.9 * at.u));
  return Math.min(...boxes, ...labels, ...tips, x - w / 2, at.w - x - w / 2);
}

const SHIFTS = [0, 0.9, -0.9, 1.8];

/** How far a label of this height at a point of a curve is moved up or down, and stays on the curve: into the gap between two lanes, off their boxes. */
function intoGap(y, h, at, count) {
  const gap = Math.round(y / at.lane), middle = gap * at.lane, slack = Math.max(0, at.gap / 2 - h / 2 - 1), most = 0.45 * h;
  return gap < 1 || gap >= count ? 0 : clamp(-most, clamp(middle - slack, y, middle + slack) - y, most);
}

/** The edges of the cycle: arrows between the boxes that make them, each with its kind and its key. */
function edges(story, at) {
  const ends = new Map(), used = [], all = story.verdict.edges.filter((it) => it.a !== null && it.b !== null && it.a !== undefined && it.b !== undefined);
  const shift = (key) => { const count = ends.get(key) ?? 0; ends.set(key, count + 1); return SHIFTS[count % 4] * Math.min(at.u, at.width(0) / 4); };
  const curves = all.map(({ a, b, from, to }) => join(story, at, a, b, [shift(`${a} ${to > from}`), shift(`${b} ${to < from}`)]));
  const type = (at.width(0) < 3 * at.u ? S : M) * at.u, h = 1.45 * type, words = all.map(({ kind, key }) => `${kind} ${key ?? ""}`.trim()), widths = words.map((it) => wide(it, type, 700) + 0.9 * type);
  const place = (index) => {
    const w = widths[index], others = used.filter((_, other) => other !== index), points = Array.from({ length: 41 }, (_, part) => pointAt(curves[index].curve, 0.1 + part * 0.02));
    const [x, y] = points.flatMap(([left, top]) => [0, intoGap(top, h, at, story.names.length)].map((by) => {
      const point = [left, top + by];
      return [clearance(point, [w, h], story, at, others, curves) - Math.abs(by) / 2, point];
    })).sort(([one], [other]) => other - one)[0][1];
    used[index] = { x: clamp(w / 2 + 1, x, at.w - w / 2 - 1), y: Math.max(y, h / 2 + 1), w };
  };
  // Each label once more where the others are known.
  for (let round = 0; round < 3; round++) all.forEach((_, index) => place(index));
  const line = ({ curve, tip, isDown, size }) => path(curved(curve), "edge") + head(...tip, isDown, size * 1.5, "bad");
  const label = ({ x, y, w }, index) => rect(x - w / 2, y - h / 2, w, h, "bad", 0.3 * at.u) + text(x, y + 0.35 * type, type, words[index], "b on");
  return curves.map(line).join("") + used.map(label).join("");
}

// ---- all of it

/** The line of each transaction that is alive, or was: from its first column to its end. */
function lives(story, at, step) {
  const firsts = new Map(), lasts = new Map();
  story.columns.slice(0, step).forEach(({ t }, index) => {
    if (!firsts.has(t)) firsts.set(t, index);
    lasts.set(t, index);
  });
  return [...firsts].sort(([one], [other]) => one - other).map(([t, first]) => {
    const last = lasts.get(t), isOver = /commit|abort|unknown/.test(story.columns[last].kind), y = r1(at.y(t) + at.high / 2);
    return path(`M${r1(at.left(first) + 3)} ${y}H${r1(isOver ? at.mid(last) : at.right(step))}`, `life s${colour(t)}`);
  }).join("");
}

/** What a screen reader says of a column. */
export const labelOf = (column, index) => `${index + 1}: ${plain(column.say ?? "")}`;

/** The lanes after `step` moves; the step after the last is the verdict. With `isLive` each box can be pressed. */
export function lanes(story, at, step, isLive = false) {
  const isEnd = step > at.count, now = Math.min(step, at.count), isCycle = isEnd && story.verdict.kind === "not", kept = inCycle(story), h = at.lane * story.names.length;
  const band = now > 0 && !isEnd ? rect(at.left(now - 1), 0, at.width(now - 1), h, "band") : "", dim = (is) => (is ? ' class="dim"' : "");
  const rules = story.names.map((_, t) => path(`M0 ${r1(at.y(t) + at.high / 2)}H${r1(at.w)}`, "rule")).join("");
  const bars = story.waits.filter((wait) => wait.from < now).map((wait) => `<g${dim(isCycle)}>${waitBar(story, at, wait, now)}</g>`).join("");
  const live = (column, index) => isLive ? ` data-step="${index + 1}" role="button" tabindex="${index === now - 1 ? 0 : -1}" aria-label="${esc(labelOf(column, index))}"${index === step - 1 ? ' aria-current="step"' : ""}` : "";
  const boxes = story.columns.slice(0, now).map((column, index) => `<g${live(column, index)}${dim(isCycle && !kept.has(index))}>${at.boxes[index] ??= `${title(plain(column.say ?? ""))}${boxOf(column, at, index)}`}</g>`).join("");
  const under = isCycle ? story.columns.map((column, index) => (column.kind === "wait" ? "" : rect(at.left(index) + 2, at.y(column.t), at.width(index) - 4, at.high, "chip", column.kind === "commit" ? at.high / 2 : 6))).join("") : "";
  const arrows = isCycle ? "" : frees(story, at, now), found = isCycle ? edges(story, at) : links(story, at, now);
  return svg(at.w, h, `Lanes of ${story.names.join(", ")} after ${now} of ${at.count} moves`, DEFS + band + rules + lives(story, at, now) + bars + arrows + under + boxes + found, isLive ? "group" : "img");
}
