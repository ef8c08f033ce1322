/* ================================================================ a step as one picture: SVG with its style inside */

const SVG = "http://www.w3.org/2000/svg";
/** What a part of a drawing has of its style. */
const STYLES = ["fill", "fill-opacity", "stroke", "stroke-width", "stroke-dasharray", "stroke-linecap", "opacity", "font-size", "font-weight", "font-family", "text-anchor", "text-decoration-line"];

/** An element of SVG with these attributes. */
function svgOf(name, attributes, text = "") {
  const made = document.createElementNS(SVG, name);
  for (const [key, value] of Object.entries(attributes)) made.setAttribute(key, value);
  if (text) made.textContent = text;
  return made;
}

/** A copy of a drawing that has its style in attributes, and nothing that a picture has no use for. */
function styledCopy(drawing) {
  const copy = drawing.cloneNode(true);
  const pairs = [drawing, ...drawing.querySelectorAll("*")].map((it, index) => [it, index]);
  const copies = [copy, ...copy.querySelectorAll("*")];
  for (const [it, index] of pairs) {
    const [style, made] = [getComputedStyle(it), copies[index]];
    for (const name of ["class", "style", "role", "tabindex", ...Object.keys(it.dataset).map((key) => "data-" + key)]) made.removeAttribute(name);
    for (const { name } of [...made.attributes]) if (name.startsWith("aria-")) made.removeAttribute(name);
    if (it.tagName === "title") { made.remove(); continue; }
    if (it.classList.contains("hit")) { made.remove(); continue; }
    for (const name of STYLES) {
      const value = style.getPropertyValue(name).replace(/url\("[^"#]*(#[^"]*)"\)/, "url($1)");
      if (value && value !== "none" || name === "fill") made.setAttribute(name === "text-decoration-line" ? "text-decoration" : name, value);
    }
  }
  return copy;
}

/** A drawing of the page at its place. */
function placedDrawing(drawing, origin) {
  const box = drawing.getBoundingClientRect();
  const copy = styledCopy(drawing);
  for (const [name, value] of Object.entries({ x: box.left - origin.left, y: box.top - origin.top, width: box.width, height: box.height })) copy.setAttribute(name, f1(value));
  copy.setAttribute("overflow", "hidden");
  return copy;
}

const isClear = (colour) => colour === "transparent" || /, 0\)$/.test(colour);

/** The box of an element, where it has a ground or an edge. */
function boxOf(element, origin) {
  const style = getComputedStyle(element);
  const box = element.getBoundingClientRect();
  const outcome = [...element.classList].find((it) => /^o\d$/.test(it));
  const ground = outcome ? getComputedStyle(document.documentElement).getPropertyValue(`--${outcome}`) : style.backgroundColor;
  const parts = [];
  const place = { x: f1(box.left - origin.left), y: f1(box.top - origin.top), width: f1(box.width), height: f1(box.height), rx: f1(parseFloat(style.borderTopRightRadius) || 0) };
  const edge = parseFloat(style.borderTopWidth);
  if (box.width && (!isClear(ground) || edge)) parts.push(svgOf("rect", { ...place, fill: isClear(ground) ? "none" : ground, ...(edge ? { stroke: style.borderTopColor, "stroke-width": edge } : {}) }));
  const side = parseFloat(style.borderLeftWidth);
  if (side > 3) parts.push(svgOf("rect", { ...place, width: side, rx: 0, fill: style.borderLeftColor }));
  return parts;
}

/** The lines of a text, each word with the words beside it, at their places. */
function linesOfText(node, origin) {
  const style = getComputedStyle(node.parentElement);
  const lines = [];
  const range = document.createRange();
  for (const { 0: word, index } of node.data.matchAll(/\S+/g)) {
    range.setStart(node, index);
    range.setEnd(node, index + word.length);
    const box = range.getBoundingClientRect();
    if (!box.width) continue;
    const last = lines.at(-1);
    if (last && Math.abs(last.top - box.top) < 2) { last.text += " " + word; last.right = box.right; } else lines.push({ text: word, top: box.top, left: box.left, right: box.right, height: box.height });
  }
  return lines.map((it) => svgOf("text", {
    x: f1(it.left - origin.left), y: f1(it.top - origin.top + it.height * 0.79), fill: style.color, "font-size": style.fontSize, "font-weight": style.fontWeight, "font-family": style.fontFamily,
    textLength: f1(it.right - it.left), lengthAdjust: "spacingAndGlyphs", ...(style.textDecorationLine.includes("underline") ? { "text-decoration": "underline" } : {}),
  }, it.text));
}

/** What the style writes before an element, as "because". */
function wordsBefore(element, origin) {
  const style = getComputedStyle(element, "::before");
  const text = /^"(.*)"$/.exec(style.content)?.[1] ?? "";
  if (!text.trim()) return [];
  const box = element.getBoundingClientRect();
  return [svgOf("text", { x: f1(box.left - origin.left), y: f1(box.top - origin.top + parseFloat(getComputedStyle(element).lineHeight || style.fontSize) * 0.76), fill: style.color, "font-size": style.fontSize, "font-family": style.fontFamily }, text)];
}

const NOT_IN_PICTURES = "#slider, #path, .rule, .hidden, .onward, [data-do], [data-find], script";

/** Adds an element with all that it shows to a picture. */
function addToPicture(element, origin, picture) {
  if (element.matches(NOT_IN_PICTURES) || !element.getClientRects().length) return;
  if (element.tagName === "svg") { picture.append(placedDrawing(element, origin)); return; }
  picture.append(...boxOf(element, origin), ...wordsBefore(element, origin));
  for (const node of element.childNodes) {
    if (node.nodeType === Node.TEXT_NODE) picture.append(...linesOfText(node, origin));
    else if (node.nodeType === Node.ELEMENT_NODE) addToPicture(node, origin, picture);
  }
}

/** This step as a picture: an element of SVG. It needs no style and no script. */
function pictureOf() {
  const box = document.querySelector("main").getBoundingClientRect();
  const head = 2.2 * rem();
  const origin = { left: box.left, top: box.top - head };
  const [W, H] = [box.width, Math.max(box.height, document.querySelector("main").scrollHeight) + head];
  const picture = svgOf("svg", { xmlns: SVG, width: f1(W), height: f1(H), viewBox: `0 0 ${f1(W)} ${f1(H)}` });
  const style = getComputedStyle(document.body);
  const at = isTree ? placeSaid().replace(/\./g, " ") : `after step ${run.done + here} of ${run.done + run.last}`;
  picture.append(styledCopy(document.querySelector(".defs defs")), svgOf("rect", { width: "100%", height: "100%", fill: style.backgroundColor }));
  picture.append(svgOf("text", { x: f1(0.8 * rem()), y: f1(1.6 * rem()), fill: style.color, "font-size": `${f1(1.15 * rem())}px`, "font-weight": "700", "font-family": style.fontFamily }, `${$("title").textContent} \u00b7 ${at}`));
  for (const part of document.querySelectorAll("#lanes, #say, .panel")) addToPicture(part, origin, picture);
  return picture;
}

const pictureText = () => new XMLSerializer().serializeToString(pictureOf());

/** Saves this step as a file. */
function savePicture() {
  const link = document.createElement("a");
  const name = `${data.title} ${isTree ? placeSaid() || "start" : run.done + here}`.replace(/[^\p{L}\p{N}]+/gu, "-").toLowerCase();
  link.href = URL.createObjectURL(new Blob([pictureText()], { type: "image/svg+xml" }));
  link.download = `${name}.svg`;
  link.click();
  setTimeout(() => URL.revokeObjectURL(link.href), 1000);
}

/* ---- in print: the telling steps as pictures, and all steps as a table; of an explorer its outcomes */

/** A run has at most so many pictures in print. */
const MOST_PICTURES = 24;

/** The positions of steps with a wait, an abort or a comment. */
function tellingPositions() {
  const its = run.steps.map((step, index) => [step, index + 1]).filter(([step, at]) => spanOf(at).to === at && (step.note || /^(waiting|victim|failed|aborted)/.test(step.reply)));
  return its.map(([, at]) => at).slice(0, MOST_PICTURES);
}

function picturesInPrint() {
  const kept = here;
  const theme = document.documentElement.dataset.theme;
  document.documentElement.dataset.theme = "light";
  guess = null;
  const pictures = tellingPositions().map((at) => { here = at; show(); const it = pictureOf(); it.setAttribute("class", "picture"); return it; });
  if (theme) document.documentElement.dataset.theme = theme; else delete document.documentElement.dataset.theme;
  here = kept;
  show();
  return pictures;
}

function tableInPrint() {
  const acting = new Set(run.steps.map((it) => it.name));
  const ids = run.txnIds.filter((id) => acting.has(nameOf(id)));
  const rows = run.steps.map((step, index) => {
    const cells = ids.map((id) => `<td>${step.name === nameOf(id) ? `${esc(step.event)} \u2192 <b>${esc(step.reply)}</b>` : ""}</td>`).join("");
    const whole = step.name === null ? `<td colspan="${ids.length}">detect \u2192 <b>${esc(step.reply)}</b></td>` : cells;
    return `<tr><td>${run.done + index + 1}</td>${whole}<td>${step.note ? `<i>${esc(step.note)}</i><br>` : ""}${linesOf(step.why).map(reasonOf).join("<br>")}</td><td>${changesOf(index + 1).join(" ")}</td></tr>`;
  });
  return `<caption>${esc(data.title)}. ${esc(data.about ?? "")}</caption><thead><tr><th>#</th>${ids.map((id) => `<th>${esc(nameOf(id))} <small>${esc(run.txn(id, 0).level)}</small></th>`).join("")}<th>why</th><th>changes</th></tr></thead><tbody>${rows.join("")}</tbody>`;
}

/** The first order that leads to an outcome, as its transactions one after another. */
const firstOrder = (outcome) => movesOn(tree, 0, outcome).order.join(" ");

function outcomesInPrint() {
  const counts = tree.nodes[0].counts;
  const rows = data.outcomes.map((outcome, at) => `<tr><td>${letterOf(at)}</td><td>${counts[at]}</td><td>${esc(endsAndRows(outcome))}</td><td><b>${esc(verdictOf(outcome))}</b></td><td>${esc(firstOrder(at))}</td></tr>`);
  return `<caption>${esc(data.title)}. ${esc(data.about ?? "")} ${total(counts)} orders of the moves.</caption><thead><tr><th></th><th>orders</th><th>ends and rows</th><th>verdict</th><th>the first of these orders</th></tr></thead><tbody>${rows.join("")}</tbody>`;
}

function buildPrint() {
  if (storyPage?.isOpen) return;
  const table = document.createElement("table");
  table.innerHTML = isTree ? outcomesInPrint() : tableInPrint();
  $("print").replaceChildren(...(isTree ? [] : picturesInPrint()), table);
}
addEventListener("beforeprint", buildPrint);
addEventListener("afterprint", () => { $("print").replaceChildren(); });
