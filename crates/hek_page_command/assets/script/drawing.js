/* ================================================================ drawing */

const drawn = new Map();

/** Puts HTML into a place, unless it is there already. What has the focus there keeps it. */
function put(id, html) {
  if (drawn.get(id) === html) return;
  drawn.set(id, html);
  const place = $(id);
  keepFocus(place, () => { place.innerHTML = html; });
}

/** Draws a place anew. What has the focus there keeps it. */
function keepFocus(place, draw) {
  const focused = place.contains(document.activeElement) ? document.activeElement : null;
  draw();
  if (!focused || place.contains(document.activeElement)) return;
  const key = keyOf(focused);
  ((key && place.querySelector(key)) ?? place.querySelector("[tabindex]"))?.focus();
}

/** What finds an element again after its place is drawn anew; from a step the focus goes on to the step that is shown then. */
function keyOf(element) {
  if (element.dataset.at !== undefined) return '[aria-current="step"]';
  const name = ["v", "txn", "next", "find"].find((it) => element.dataset[it] !== undefined);
  return name ? `[data-${name}="${element.dataset[name]}"]` : null;
}

/** Puts a drawing into a place: its attributes, and layers of parts, each with its shift to the right. A part is the text of one element.
    Those that are there already stay, so that the browser lays out and paints only what a step changes. */
function putDrawing(id, attributes, layers) {
  const place = $(id);
  keepFocus(place, () => {
    if (!(drawn.get(id) instanceof Array)) {
      place.innerHTML = `<svg>${layers.map(() => "<g></g>").join("")}</svg>`;
      drawn.set(id, layers.map(() => new Map()));
    }
    const svg = place.firstElementChild;
    setAttributes(svg, attributes);
    layers.forEach(({ shift, parts }, index) => {
      setAttributes(svg.children[index], { transform: `translate(${f1(shift)} 0)` });
      drawn.get(id)[index] = putParts(svg.children[index], drawn.get(id)[index], parts);
    });
  });
}

function setAttributes(element, attributes) {
  for (const [name, value] of Object.entries(attributes)) if (element.getAttribute(name) !== value) element.setAttribute(name, value);
}

/** Puts these parts, in their order, in place of those that a layer had; answers its elements by their texts. */
function putParts(layer, old, parts) {
  const now = new Map(parts.map((it) => [it, old.get(it)]));
  for (const [text, element] of old) if (!now.has(text)) element.remove();
  let next = layer.firstChild;
  for (const [text, kept] of now) {
    if (kept !== undefined && kept === next) { next = next.nextSibling; continue; }
    const element = kept ?? elementOf(text);
    layer.insertBefore(element, next);
    now.set(text, element);
  }
  return now;
}

const reader = document.createElement("template");
/** The element of SVG that a text is of. */
function elementOf(text) {
  reader.innerHTML = `<svg>${text}</svg>`;
  return reader.content.firstChild.firstChild;
}

/* What a drawing reads of the page's size is measured when the page is built or its type changes, and is not read again while a step is
   drawn: each reading would have the browser lay out what was drawn so far. An observer reports later sizes of the panels. */
const DRAWN = { lanes: () => showLanes(), chains: () => showChains(), graph: () => showGraph(), word: () => { if (!isTree || pinned) showWord(); else showTree(); } };
const sizes = {};
let unit = 16;
let isOneColumn = false;
let viewHeight = 0;
const rem = () => unit;
/** Whether the page is one column, as the style has it. */
const isSmall = () => isOneColumn;
/** Whether the page is for the last row of a room: versions and words have no room then. */
const isFar = () => document.documentElement.classList.contains("far");

function measure() {
  unit = parseFloat(getComputedStyle(document.documentElement).fontSize);
  isOneColumn = matchMedia("(max-width: 40rem)").matches;
  viewHeight = innerHeight;
  for (const id of [...Object.keys(DRAWN), "because"]) sizes[id] = [$(id).clientWidth, $(id).clientHeight];
}

const watcher = new ResizeObserver((entries) => {
  for (const { target: { id, clientWidth, clientHeight } } of entries) {
    const [width, height] = sizes[id];
    const isSame = width === clientWidth && (height === clientHeight || id === "lanes" || (id === "because" && isSmall()));
    sizes[id] = [clientWidth, clientHeight];
    if (!isSame && clientWidth > 0) (DRAWN[id] ?? show)();
  }
});

/** Widths of texts at 100 px, by weight and text: a canvas for each weight, since setting its font costs more than measuring. */
const rulers = new Map();

function rulerOf(weight) {
  const canvas = document.createElement("canvas").getContext("2d");
  canvas.font = `${weight} 100px ${getComputedStyle(document.body).fontFamily}`;
  const ruler = { canvas, widths: new Map() };
  rulers.set(weight, ruler);
  return ruler;
}

function widthOf(text, size, weight = 400) {
  const { canvas, widths } = rulers.get(weight) ?? rulerOf(weight);
  let width = widths.get(text);
  if (width === undefined) widths.set(text, (width = canvas.measureText(text).width));
  return (width * size) / 100;
}
/** The first of some texts that fits a width, else none. */
const fitting = (texts, width, size, weight) => texts.find((it) => widthOf(it, size, weight) <= width) ?? "";
const f1 = (number) => Math.round(number * 10) / 10;
const arrowTip = (x, y, up, size) => { const s = up ? 1 : -1; return `M${f1(x)} ${f1(y)}l${f1(-size * 0.62)} ${f1(s * size)}h${f1(size * 1.24)}z`; };
