// The rows of a story over time, where snapshots look, and what is to hold. Pure.
import { cut, fitting, list, wide } from "./text.mjs";
import { DEFS, M, S, colour, path, r1, rect, svg, text, title } from "./svg.mjs";

const NONE = "–";
const height = (story, at) => at.top + at.row * (story.tracks.length + story.always.length) + 4;

/** The heads of the rows: keys, and what is to hold. */
export function keys(story, at) {
  const { u } = at, count = story.tracks.length, room = at.gutter - 4;
  const rows = story.tracks.map(({ key }, index) => `<g>${title(key)}${text(2, at.top + at.row * index + at.row - 0.27 * u, M * u, cut(key, room, M * u, 700), "b", "start")}</g>`);
  const always = story.always.map((it, index) => text(2, at.top + at.row * (count + index) + 1.35 * u, S * u, cut("always", room, S * u, 700), "b", "start"));
  return svg(at.gutter, height(story, at), "rows", (story.views.length ? text(2, at.u, S * u, "row", "soft", "start") : "") + rows.join("") + always.join(""));
}

/** The committed values of a key so far: the bar of each, and where its words stand, from `low` to `high`. Those of the last one may go past its bar, where nothing is drawn yet. */
function valuesOf({ segments }, at, now, till) {
  const size = M * at.u;
  let before = 0;
  return segments.filter(({ t, from }) => t === null || from < now).map(({ from, to, value, t }) => {
    const isOpening = t === null, isLast = to === null || to >= now, x = isOpening ? 0 : at.mid(from), w = till(0, to) - x || at.pad, words = value ?? NONE, own = wide(words, size, 700);
    const room = Math.max((isLast ? at.w - x : w) - (isOpening ? 6 : 10), at.pad - 8);
    // At the end of the picture a value stands left of its mark, where it has room.
    const isLeft = !isOpening && isLast && own > room && own + 8 < x - before, low = isLeft ? x - 4 - own : x + (isOpening ? 5 : 9);
    before = x + Math.min(own, room) + 12;
    return { x, w, t, isLeft, words, said: isLeft ? words : cut(words, room, size, 700), low, high: low + (isLeft ? own : Math.min(own, room)) };
  });
}

/** The height over a row's bar. */
const overBar = (at) => at.row - 1.19 * at.u;

/** A key's track: a bar of committed values, and above it, dashed, what is written and not yet committed. */
function track(it, at, y, now, till) {
  const { u } = at, { pending } = it, bar = overBar(at), parts = [path(`M0 ${r1(y + at.row - 0.03 * u)}H${r1(at.w)}`, "rule")], base = y + at.row - 0.27 * u;
  for (const { x, w, t, isLeft, words, said, low, high } of valuesOf(it, at, now, till)) {
    const isOpening = t === null;
    parts.push(rect(x, y + bar, Math.max(w, isOpening ? at.pad - 4 : 2) - 1, at.row - bar - 0.05 * u, isOpening ? "seg" : `tint f${colour(t)}`, 2));
    if (!isOpening) parts.push(rect(x, y + bar, 4, at.row - bar - 0.05 * u, `f${colour(t)}`));
    parts.push(`<g>${title(words)}${text(isLeft ? high : low, base, M * u, said, `b ${isOpening ? "" : `f${colour(t)}`}`, isLeft ? "end" : "start")}</g>`);
  }
  for (const { t, from, to, value, end } of pending) {
    if (from >= now) continue;
    const x = at.mid(from), until = till(0, to), w = Math.max(until - x, 2) - 2, isOpen = (to === null || to >= now) && !pending.some((other) => other.from > from && other.from < now);
    const room = Math.max(isOpen ? at.w - x - 6 : w - 4, at.width(from) / 2);
    parts.push(rect(x, y + 0.06 * u, w, bar - 0.1 * u, `pend s${colour(t)}`, 2), text(x + 4, y + bar - 0.14 * u, S * u, cut(value ?? NONE, room, S * u), `f${colour(t)}`, "start"));
    if (end === "abort" && to < now) parts.push(text(until + 1, y + bar - 0.12 * u, S * u, "✗", "b badt", "start"));
  }
  return parts.join("");
}

/** From a read's column down to the rows that it sees: as of now, as of its snapshot, or what its transaction wrote itself. */
function looks(story, at, now, views) {
  const column = story.columns[now - 1], { u } = at;
  if (column?.kind !== "read") return "";
  return story.tracks.map(({ key }, index) => {
    if (key !== column.key) return "";
    const isOwn = column.by === column.t, y = at.top + at.row * index + (isOwn ? 0.4 * u : at.row - 0.6 * u), view = views.find((it) => it.t === column.t), x = at.mid(now - 1), to = view && !isOwn ? view.x : x;
    return path(`M${r1(x)} 0V${r1(y)}H${r1(to)}`, `link s${colour(column.t)}`) + `<circle cx="${r1(to)}" cy="${r1(y)}" r="${r1(0.35 * u)}" class="f${colour(column.t)}"/>`;
  }).join("");
}

/** What is said at a view: those who look at the same column share it, at the last of their lines. */
function saidOfView(story, at, views, index) {
  const { u } = at, own = views.filter((it) => it.at === views[index].at), room = (views[index + 1]?.x ?? at.w) - views[index].x - 6, all = list(own.map(({ t }) => story.names[t]));
  if (own.at(-1) !== views[index] || room < 2 * u) return own.length > 1 ? "" : fitting([story.names[views[index].t], ""], room, S * u, 700);
  return fitting(own.length > 1 ? [`views of ${all}`, all] : [`${all}’s view`, all], room, S * u, 700);
}

/** The dotted lines at which transactions look that read a snapshot: over no value. */
const looking = (story, at, views, values) => views.map(({ x, t }, index) => {
  const { u } = at, said = saidOfView(story, at, views, index), isOne = views.filter((it) => it.at === views[index].at).length === 1;
  const covered = values.flatMap((its, row) => (its.some(({ low, high }) => low - 2 < x && x < high + 2) ? [at.top + at.row * row] : []));
  const line = covered.map((y) => `V${r1(y + overBar(at))}M${r1(x)} ${r1(y + at.row)}`).join("");
  return path(`M${r1(x)} ${r1(0.5 * u)}${line}V${r1(at.top + at.row * story.tracks.length)}`, `view s${colour(t)}`) +
    (said ? text(x + 4, u, S * u, said, `b halo ${isOne ? `f${colour(t)}` : ""}`, "start") : "");
}).join("");

/** What is to hold, with the values put in: red from the commit on that breaks it. */
function always({ states, text: words }, at, y, now, right) {
  const { u } = at;
  return states.map((state, index) => {
    if (index > 0 && state.from >= now) return "";
    const x = index ? at.mid(state.from) : 0, next = states[index + 1], to = next && next.from < now ? at.mid(next.from) : Math.max(right, at.pad), w = to - x, mark = state.holds ? "✓" : "✗", said = `${mark} ${state.words}`;
    const label = w <= u ? "" : wide(said, S * u, 700) < w - 8 ? text(x + 6, y + 1.02 * u, S * u, said, `b ${state.holds ? "" : "on"}`, "start") : text(x + w / 2, y + 1.02 * u, S * u, mark, state.holds ? "b" : "b on");
    return `<g>${title(`${words}: ${state.words}`)}${rect(x + 1, y, w - 2, 1.5 * u, state.holds ? "ok" : "bad", 3)}${label}</g>`;
  }).join("");
}

/** The rows after `step` moves. */
export function tracks(story, at, step) {
  const isEnd = step > at.count, now = Math.min(step, at.count), right = isEnd || now === at.count ? at.w : at.right(now), low = at.top + at.row * (story.tracks.length + story.always.length);
  const till = (_, to) => Math.min(right, to === null || to >= now ? right : at.mid(to));
  const seen = story.views.filter((it) => it.at < now || (it.at === now && isEnd)).sort((one, other) => one.at - other.at);
  const views = seen.map((it, index) => ({ t: it.t, at: it.at, x: at.left(it.at) + 3 + 5 * seen.slice(0, index).filter((other) => other.at === it.at).length }));
  const parts = [DEFS, now > 0 && !isEnd ? rect(at.left(now - 1), 0, at.width(now - 1), low + 4, "band") : ""];
  story.tracks.forEach((it, index) => parts.push(track(it, at, at.top + at.row * index, now, till)));
  if (!isEnd) parts.push(looks(story, at, now, views));
  parts.push(looking(story, at, views, story.tracks.map((it) => valuesOf(it, at, now, till))));
  story.always.forEach((it, index) => parts.push(always(it, at, at.top + at.row * (story.tracks.length + index) + 0.35 * at.u, now, right)));
  return svg(at.w, low + 4, `Rows after ${now} moves`, parts.join(""));
}
