// A story as one picture, with its style inside: for a slide, a file, a page of print. Pure.
import { fitting, plain, wide } from "./text.mjs";
import { COLOURS, L, M, S, STYLE, XL, rect, r1, svg, text } from "./svg.mjs";
import { layout } from "./layout.mjs";
import { lanes, names } from "./lanes.mjs";
import { keys, tracks } from "./rows.mjs";

/** The colours in place of the names of custom properties: programs that draw slides know none. */
const painted = (drawing, colours) => drawing.replace(/var\(--(\w+)\)/g, (all, name) => colours[name] ?? all);

/** The words above the picture: of a step its sentence, at the end the verdict. */
function saying(story, step) {
  if (step === 0) return { say: "", isBad: false };
  if (step > story.columns.length) return { say: plain(story.verdict.say), isBad: story.verdict.kind === "not" || story.verdict.breaks !== null };
  const { say, breaks } = story.columns[step - 1];
  return { say: plain(say), isBad: breaks !== null };
}

/** The picture of a story after `step` moves; the step after the last, which it is without `step`, is the verdict. */
export function figure(story, { step = story.columns.length + 1, width = 1000, theme = "light", title = "" } = {}) {
  const u = 16, at = layout(story, { w: width, h: 480, u }), hasRows = story.tracks.length + story.always.length > 0, { say, isBad } = saying(story, step);
  const heading = title ? 1.6 * u : 0, top = heading + (say ? 2.4 * u : 0), low = top + at.lane * story.names.length + 8, room = at.gutter + at.w, size = [XL, L, M].find((it) => wide(say, it * u, 700) <= room - 4) ?? M;
  const parts = [[0, top, names(story, at, step)], [at.gutter, top, lanes(story, at, step)], ...(hasRows ? [[0, low, keys(story, at)], [at.gutter, low, tracks(story, at, step)]] : [])];
  const high = hasRows ? low + Number(/height="([\d.]+)"/.exec(parts[3][2])[1]) : low;
  const words = (title ? text(2, 1.1 * u, S * u, fitting([title], room - 4, S * u), "soft", "start") : "") + text(2, heading + 1.7 * u, size * u, fitting([say], room - 4, size * u, 700), isBad ? "b badt" : "b", "start");
  const inside = `<style>${STYLE}</style>${rect(0, 0, room, high, "chip")}${words}${parts.map(([x, y, part]) => `<g transform="translate(${r1(x)} ${r1(y)})">${part}</g>`).join("")}`;
  return painted(svg(room, high, title || "a run", inside), COLOURS[theme]);
}
