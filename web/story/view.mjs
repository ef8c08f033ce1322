// What the page shows of a story, as HTML. Pure: from a model and a place in it to texts.
//
// A model is what is known of one schedule and one order of its moves: `stories` and `outcomes` by level, `levels` in the order of their cards, `text`, `about`, `question`,
// `asides` ({at, html, level, verdict}) and `order`. A place is a level of it, `step`, and what is open.
import { esc, grouped, plain, rich, sentences } from "./text.mjs";
import { layout } from "./layout.mjs";
import { lanes, names } from "./lanes.mjs";
import { keys, tracks } from "./rows.mjs";
import { bars, hasOutcome, mini } from "./cards.mjs";
import { samePlace, shortVerdict } from "./story.mjs";

export const WRITTEN = "as written";

/** Which position of a story an aside belongs to: the start, the end, or the first (or the nth) move of a kind, of a transaction, of a key; -1 if there is no such move. */
export function positionOf(at, story) {
  if (at === "start") return 0;
  if (at === "end") return story.columns.length + 1;
  const all = story.columns.flatMap((it, index) => (fits(it, at) ? [index + 1] : []));
  return all[(at.nth ?? 1) - 1] ?? -1;
}

const fits = (column, { kind, txn, key }) => column.kind === kind && (txn === undefined || column.txn === txn) && (key === undefined || String(column.key ?? column.bucket) === String(key));

// ---- the sentence

function edgesHtml({ verdict, always, names: all }) {
  const broken = always.find((it) => it.line === verdict.breaks), rows = verdict.edges.map((edge) => [`${edge.kind} ${edge.key ?? ""}`, rich(edge.say, all)]);
  if (verdict.breaks !== null) rows.push(["always", `${esc(broken?.text ?? `line ${verdict.breaks}`)} doesn’t hold at the end.`]);
  return rows.length ? `<ul class="${rows.length > 3 ? "two" : ""}">${rows.map(([kind, said]) => `<li><span class="edge-kind">${esc(kind)}</span><span>${said}</span></li>`).join("")}</ul>` : "";
}

/** The words over the picture: of the start its question, of a move its sentence and its reason, at the end the verdict and its edges. */
export function sentence(model, story, { step, mode }) {
  const column = story.columns[step - 1], { verdict } = story;
  if (step === 0 || mode === "compare") {
    const asked = model.question || model.title, more = model.question && mode !== "compare" && !model.intro ? model.about : "";
    return `<p>${esc(asked)}</p>${more ? `<p class="why">${esc(more)}</p>` : ""}`;
  }
  if (column) return `<p class="${column.breaks === null ? "" : "not"}">${rich(column.say, story.names)}</p>${column.why ? `<p class="why">${rich(column.why, story.names)}</p>` : ""}`;
  const isBad = verdict.kind === "not" || verdict.breaks !== null, tail = sentences([verdict.kind === "not" ? verdict.name : "", verdict.tail]);
  return `<p class="verdict ${isBad ? "not" : ""}">${rich(verdict.say, story.names)}</p>${tail ? `<p class="why">${rich(tail, story.names)}</p>` : ""}${edgesHtml(story)}`;
}

/** So much room the sentence has at each step, that the picture doesn't jump: in the size of ordinary text. */
export function sentenceRoom(model, mode) {
  if (mode === "compare") return 3.2;
  const rows = Object.values(model.stories).map(({ verdict }) => verdict.edges.length + (verdict.breaks === null ? 0 : 1)), most = Math.max(0, ...rows), lines = most > 3 ? Math.ceil(most / 2) : most;
  return Math.max(6, (lines ? 4.8 : 3.2) + 1.4 * lines);
}

// ---- the picture

const cell = (kind, inside) => `<div class="${kind}">${inside}</div>`;

// The last room of each story, and where things stand in it: no step moves them.
const laid = new WeakMap();

/** Where things stand in a room, which is the last one at each step but the first. */
function laidOut(story, { w, h, u }) {
  const room = `${w} ${h} ${u}`;
  if (laid.get(story)?.room !== room) laid.set(story, { room, at: layout(story, { w, h, u }) });
  return laid.get(story).at;
}

/** The lanes over the rows; answers the HTML and the layout. */
export function stage(story, step, room) {
  const at = laidOut(story, room), parts = [cell("names", names(story, at, step)), cell("lanes", lanes(story, at, step, true))];
  if (story.tracks.length + story.always.length) parts.push(cell("names", keys(story, at)), cell("tracks", tracks(story, at, step)));
  return { html: parts.join(""), at };
}

/** The lanes of each level under one another, with columns of one width. */
export function compared(model, story, step, { w, h, u }) {
  const all = model.levels.map((level) => [level, model.stories[level]]).filter(([, it]) => it), stories = all.map(([, it]) => it), heading = 2.2 * u;
  const at = stories.map((it) => layout(it, { w, h: h / stories.length - heading, u, all: stories, rows: false }));
  const html = all.map(([level, its], index) => {
    const now = samePlace(story, step, its), isEnd = now > its.columns.length, { kind, breaks } = its.verdict, said = now ? rich(isEnd ? its.verdict.say : its.columns[now - 1].say, its.names) : "";
    return `<h2 class="${isEnd && (kind === "not" || breaks !== null) ? "not" : ""}"><span>${esc(level)}</span> ${said}</h2>${cell("names", names(its, at[index], now))}<div class="lanes" data-level="${esc(level)}">${lanes(its, at[index], now, true)}</div>`;
  }).join("");
  return { html, at: at[stories.indexOf(story)] };
}

// ---- the cards

const KINDS = [["slate", "serializable"], ["hatch", "in another order"], ["bad", "✗ not serializable"]];
const swatch = ([kind, words]) => `<span class="kind"><svg class="pic" viewBox="0 0 22 16" aria-hidden="true"><rect width="22" height="16" rx="3" class="${kind}"/></svg>${words}</span>`;

/** What the cards show, and the marks of the bars. */
export function legend({ outcomes, levels, uncounted }) {
  const counted = levels.map((level) => outcomes[level]).find(Boolean);
  if (counted) return `<p class="st-legend">This order at each level, and all ${grouped(counted.orders)} orders by outcome: ${KINDS.map(swatch).join(" ")}. A bar plays one.</p>`;
  return `<p class="st-legend">This order at each level.${uncounted ? ` ${esc(uncounted)}` : ""}</p>`;
}

/** A card for each level: this order there as a small story, and the outcomes of all orders. That of the level on the wall is no switch. */
export function cards(model, { level }, { w, u, narrow }) {
  const inner = (narrow ? w : (w - 0.8 * u * (model.levels.length - 1)) / model.levels.length) - 1.4 * u;
  return legend(model) + model.levels.map((name, index) => {
    const its = model.stories[name], counted = model.outcomes[name], isHere = name === level;
    if (!its) return `<div class="level"><p class="head">${esc(name)}</p></div>`;
    const isBad = its.verdict.kind === "not" || its.verdict.breaks !== null, head = `<span class="head"><span>${esc(name)}</span> <span class="end ${isBad ? "not" : ""}">${esc(shortVerdict(its))}</span></span>`;
    const small = mini(its, inner, Math.min(3.9, 1.25 * its.names.length) * u, u), label = `this order at ${name}`;
    const card = isHere ? `<div class="card" aria-current="true">${head}${small}</div>` : `<button class="card" data-level="${esc(name)}" title="${index + 1}: ${label}">${head}${small}</button>`;
    return `<div class="level"${isHere ? " data-here" : ""} data-card="${esc(name)}">${card}${counted ? bars(counted, its.names, inner, u, hasOutcome(its)) : ""}</div>`;
  }).join("");
}

// ---- the words beside it

/** The run in words, each move with what is said beside it. With `hidesAfter` what comes after a step stays out of sight. */
export function told(model, story, { level }, hidesAfter = Infinity) {
  const end = story.columns.length + 1, isOwn = model.isOwnOrder !== false;
  const asides = model.asides.filter((it) => (!it.level || it.level === level) && (!it.verdict || it.verdict === story.verdict.kind) && (isOwn || it.isGeneral));
  const beside = (position) => asides.filter((it) => positionOf(it.at, story) === position).map((it) => `<div class="aside">${it.html}</div>`).join("");
  const tell = (position, html) => (position > hidesAfter ? "" : `<div class="tell" data-step="${position}">${html}</div>${beside(position)}`);
  const moves = story.columns.map((it, index) => tell(index + 1, `<p><b>${index + 1}</b> ${rich(sentences([it.say, it.why]), story.names)}</p>`));
  const { verdict } = story, said = `<p><b>${rich(verdict.say, story.names)}.</b> ${rich([verdict.tail, ...verdict.edges.map((it) => it.say)].filter(Boolean).join(" "), story.names)}</p>`;
  const paragraph = (words, kind) => (words ? `<p class="${kind}">${esc(words)}</p>` : "");
  return tell(0, model.intro ?? paragraph(model.about, "about") + paragraph(model.question, "ask")) + moves.join("") + tell(end, said) + (hidesAfter < end ? "" : model.after ?? "");
}

/** The run in plain lines, for a file or the clipboard. */
export const lines = (story) => [...story.columns.map((it, index) => `${index + 1}. ${plain(sentences([it.say, it.why]))}`), `${plain(story.verdict.say)}.`].join("\n");
