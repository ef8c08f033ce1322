// Pieces of SVG as texts, the sizes of type, the colours and the style. Pure.
import { esc } from "./text.mjs";

/** The sizes of type, in the size of ordinary text: small words, ordinary ones, values, large values and the sentence. The verdict, 2.5, is the page's. */
export const S = 0.75;
export const M = 1;
export const L = 1.25;
export const XL = 1.75;

/** A length in pixels, with one digit after the point. */
export const r1 = (length) => Math.round(length * 10) / 10;
export const clamp = (low, value, high) => Math.max(low, Math.min(value, high));
/** The colours of transactions after the eighth are those of the first ones. */
export const colour = (t) => t % 8;

export const text = (x, y, size, words, kind = "", anchor = "middle") => `<text x="${r1(x)}" y="${r1(y)}" font-size="${r1(size)}" text-anchor="${anchor}" class="${kind}">${esc(words)}</text>`;
export const rect = (x, y, w, h, kind, round = 0) => `<rect x="${r1(x)}" y="${r1(y)}" width="${r1(Math.max(w, 0))}" height="${r1(Math.max(h, 0))}" rx="${r1(round)}" class="${kind}"/>`;
export const path = (line, kind) => `<path d="${line}" class="${kind}"/>`;
export const title = (words) => `<title>${esc(words)}</title>`;
export const svg = (w, h, label, inside, role = "img") =>
  `<svg xmlns="http://www.w3.org/2000/svg" width="${r1(w)}" height="${r1(h)}" viewBox="0 0 ${r1(w)} ${r1(h)}" class="pic" role="${role}" aria-label="${esc(label)}">${inside}</svg>`;

/** The colours by name, of light and of dark. Beside a transaction's colour stands its name, beside each mark a sign: nothing is said by colour alone. */
export const COLOURS = {
  light: {
    paper: "#ffffff", ink: "#101720", soft: "#4f5a67", line: "#c9d0d8", band: "#fff0bf", track: "#e9edf1", bad: "#a3001b", on: "#ffffff",
    c0: "#0a4fb3", c1: "#a83a00", c2: "#6a22a3", c3: "#00635a", c4: "#9b1150", c5: "#4f5900", c6: "#3f4a58", c7: "#7a4b00",
  },
  dark: {
    paper: "#0e1217", ink: "#f2f5f8", soft: "#b4bfcc", line: "#3d4753", band: "#3d3410", track: "#232b34", bad: "#ff9c9c", on: "#0e1217",
    c0: "#8dbdff", c1: "#ffab78", c2: "#d0adff", c3: "#66dccb", c4: "#ff9ac6", c5: "#d3df74", c6: "#c3ccd6", c7: "#e6b873",
  },
};

const FONT = '"Segoe UI",-apple-system,"Helvetica Neue",Roboto,"Noto Sans","Liberation Sans",Arial,sans-serif';
/** The style of pictures. */
export const STYLE = `.pic text{font-family:${FONT};font-variant-numeric:tabular-nums;fill:var(--ink)}
.pic .b{font-weight:700}.pic .soft,.pic .slate{fill:var(--soft)}.pic .on{fill:var(--on)}.pic .badt{fill:var(--bad)}.pic .strike{text-decoration:line-through}
.pic .box{fill:var(--paper);stroke-width:2}.pic .band{fill:var(--band)}.pic .halo{stroke:var(--paper);stroke-width:5;stroke-linejoin:round;paint-order:stroke}
.pic .ghost{fill:none;stroke:var(--soft);stroke-dasharray:4 3;stroke-width:1.5}.pic .hatch{fill:url(#hatch);stroke:var(--soft)}
.pic .chip{fill:var(--paper);stroke:none}.pic .seg{fill:var(--track)}.pic .tint{fill-opacity:.2;stroke:none}.pic .rule{stroke:var(--line);fill:none}
.pic .pend{fill:none;stroke-width:1.5;stroke-dasharray:3 2}.pic .life{fill:none;stroke-width:3;stroke-opacity:.35}.pic .link{fill:none;stroke-width:2}
.pic .view{fill:none;stroke-width:2;stroke-dasharray:2 4;stroke-linecap:round}.pic .edge{fill:none;stroke:var(--bad);stroke-width:3}.pic .bad{fill:var(--bad)}
.pic .dim{opacity:.28}.pic .ok{fill:none;stroke:var(--soft)}.pic .faint{fill-opacity:.45}.pic .none{fill:none}.pic .mark{stroke:var(--ink);stroke-width:1.5}.pic .inkf{fill:var(--ink)}
${Array.from({ length: 8 }, (_, t) => `.pic .f${t}{fill:var(--c${t})}.pic .s${t}{stroke:var(--c${t})}`).join("")}
`;
export const DEFS = '<defs><pattern id="hatch" width="7" height="7" patternUnits="userSpaceOnUse" patternTransform="rotate(45)"><line x1="0" y1="0" x2="0" y2="7" style="stroke:var(--soft);stroke-width:2.5"/></pattern></defs>';

/** The colours as custom properties of CSS. */
export const properties = (colours) => Object.entries(colours).map(([name, value]) => `--${name}:${value}`).join(";");

// ---- curves

const bezier = (from, to, bend) => [from, [from[0], from[1] + bend], [to[0], to[1] - bend], to];
export const pointAt = (curve, part) => [0, 1].map((k) =>
  (1 - part) ** 3 * curve[0][k] + 3 * part * (1 - part) ** 2 * curve[1][k] + 3 * part * part * (1 - part) * curve[2][k] + part ** 3 * curve[3][k]);
export const curved = (curve) => `M${curve[0].map(r1)}C${curve.slice(1).map((point) => point.map(r1)).join(" ")}`;
/** The head of an arrow whose tip is at x and y. */
export const head = (x, y, isDown, size, kind) => path(`M${r1(x)} ${r1(y)}l${r1(-size / 2)} ${r1(isDown ? -size : size)}h${r1(size)}z`, kind);

/** A curve from the box of one column to that of another: over its lane if they are in one, otherwise between the lanes. */
export function join(story, at, one, other, [shift, shiftTo] = [0, 0]) {
  const [from, to] = [story.columns[one], story.columns[other]], isDown = to.t > from.t, size = 0.6 * at.u;
  if (from.t === to.t) {
    const y = at.y(from.t), rise = Math.max(0.5 * at.u, (at.gap / 2 - 0.8 * at.u) / 0.75), [x, toX] = [at.mid(one) + shift, at.mid(other) + shiftTo];
    return { curve: [[x, y], [x, y - rise], [toX, y - rise], [toX, y - 0.5 * at.u]], tip: [toX, y], isDown: true, size };
  }
  const start = [at.mid(one) + shift, at.y(from.t) + (isDown ? at.high : 0)], tip = [at.mid(other) + shiftTo, at.y(to.t) + (isDown ? 0 : at.high)];
  const end = [tip[0], tip[1] + (isDown ? -size : size) * 0.9];
  return { curve: bezier(start, end, (isDown ? 1 : -1) * clamp(at.gap * 0.7, Math.abs(end[1] - start[1]) * 0.6, at.lane)), tip, isDown, size };
}
