/* ---- the timeline */

const LABELS = {
  begin: ["begin", "beg"], read: ["read", "rd"], scan: ["scan", "scn"], insert: ["insert", "ins"], update: ["update", "upd"], delete: ["delete", "del"],
  finish: ["finish", "fin"], precommit: ["precommit", "precom", "pre"], release: ["release", "rel"], commit: ["commit", "com"], fail: ["fail"],
  stamp: ["stamp", "stm"], end: ["end"], detect: ["detect", "det"],
};

/** The second line of a cell: what it is about and how it came out, longest first. */
function detailOf(step) {
  const { op, args, r } = step;
  switch (r[0]) {
    case "aborted": return ["aborted", "abort", "\u2717"];
    case "refused": return ["refused", "ref", "\u2298"];
    case "waiting": return r[1] === "commits" ? ["waiting " + r[2], "waits", "wait", "w"] : ["waiting " + r[1], "waits " + r[1], "waits", "wait", "w"];
    case "victim": return [`victim ${nameOf(r[1])}`, `victim ${shortOf(r[1])}`, shortOf(r[1]) + "\u2717"];
    case "no": return ["no cycle", "none", "no", "\u2013"];
    case "failed": return ["aborts", "\u2717"];
    case "committed": return ["\u2713"];
    case "began": case "precommitted": return ["time " + r[1], "t=" + r[1], r[1]];
    case "nothing": return ["nothing", "\u2013"];
    case "over": return ["over", ""];
    case "ready": return ["ready", ""];
    case "found": return [`${args[0]} is ${r[1]}`, `${args[0]}=${r[1]}`];
    case "absent": return [`${args[0]} absent`, `${args[0]}: no`];
    case "exists": return [`${args[0]} exists`, `${args[0]}: is`];
    case "rows": return [`bucket ${args[0]}`, `b ${args[0]}`];
    case "done": return args.length > 1 ? [`${args[0]} := ${args[1]}`, `${args[0]}:=${args[1]}`] : [args[0]];
    case "released": return r[1] === "read" ? [`v${r[2]}`] : r[1] === "bucket" ? ["bucket " + r[2], "b" + r[2]] : [nameOf(r[2]), shortOf(r[2])];
    case "stamped": return [`v${r[2]} ${r[1] === "end" ? "End" : "Begin"}`, `v${r[2]} ${r[1][0].toUpperCase()}`, "v" + r[2]];
    case "left": return ["v" + r[1]];
    default: return [""];
  }
}

/** How wide the text of a card is drawn. */
const CARD = { padding: 0.42, size: 0.98, detail: 0.955 };

/** So wide a second line of a card may be; of what is wider, the first line takes the key and the second one the value. */
const MOST_DETAIL = 5.6;

/** For a step whose key and value are too long for one line: the first line with the key, longest first, and the second one with the value. */
function longCard(step) {
  const { op, args, r } = step;
  const value = r[0] === "found" ? r[1] : r[0] === "done" && args.length > 1 ? args[1] : r[0] === "absent" || r[0] === "exists" ? r[0] : r[0] === "done" ? "" : null;
  if (value === null || widthOf(detailOf(step).at(-1), CARD.detail) <= MOST_DETAIL) return null;
  const labels = LABELS[op] ?? [op];
  return { tops: [...labels.map((it) => `${it} ${args[0]}`), args[0]], bottoms: value === "" ? [""] : [`${r[0] === "found" ? "is" : r[0] === "done" ? ":=" : ""} ${value}`.trim(), value] };
}

/** How wide the columns are at least, so that each card has its key and value. */
function leastCell(u) {
  if (run.leastCell === undefined) {
    let most = 0;
    for (const step of run.steps) {
      const long = longCard(step);
      const texts = long ? [[long.tops.at(-1), CARD.size, 600], [long.bottoms.at(-1), CARD.detail]] : [[detailOf(step).at(-1), CARD.detail], [(LABELS[step.op] ?? [step.op]).at(-1), CARD.size, 600]];
      for (const text of texts) most = Math.max(most, widthOf(...text));
    }
    run.leastCell = most + CARD.padding;
  }
  return run.leastCell * u;
}

/** Which lanes are shown: of many transactions those with a step near here. */
function lanesShown(first, last, most) {
  const all = [...run.laneIds];
  if (all.length <= most) return { ids: all, more: 0 };
  const score = new Map();
  for (let at = first; at < last; at++) {
    const name = run.steps[at].name;
    if (name && run.ids.has(name)) score.set(run.ids.get(name), Math.max(score.get(run.ids.get(name)) ?? 0, 1000 - Math.abs(at + 1 - here)));
  }
  const ids = all.sort((a, b) => (score.get(b) ?? 0) - (score.get(a) ?? 0)).slice(0, most).sort((a, b) => a - b);
  return { ids, more: all.length - most };
}

/** Where the lanes and columns are. */
function laneLayout() {
  const u = rem();
  const isPhone = isSmall();
  const [W] = sizes.lanes;
  const gutter = (isPhone ? 4.6 : 10.9) * u;
  const count = Math.max(columnCount() + (isTree && !isWhole() ? 1 : 0), 1);
  const least = Math.max(isPhone ? 2.6 * u : 2.12 * u, Math.min(leastCell(u), W - gutter));
  let cell = Math.min(Math.max((W - gutter) / count, least), Math.max(6.2 * u, least));
  const fits = Math.max(1, Math.floor((W - gutter) / cell + 0.01));
  let first = 0;
  const isWindow = count > fits;
  if (isWindow) {
    cell = (W - gutter) / fits;
    const lead = Math.max(1, Math.round(fits * 0.3));
    first = Math.min(Math.max(0, columnOf(here) + lead - fits), count - fits);
  }
  const shownLast = Math.min(count, first + fits);
  const isShort = viewHeight < 48 * u && !isPhone;
  const most = isPhone ? 4 : Math.max(3, Math.floor(viewHeight / u / (isShort ? 10 : 9)));
  const { ids, more } = lanesShown(stepsUpTo(first), stepsUpTo(shownLast), most);
  const tight = ids.length > 4 || isShort;
  const roomy = ids.length <= 2 && !isPhone && !tight;
  const laneH = (tight ? 2.85 : roomy ? 5 : ids.length > 3 ? 3.66 : 3.75) * u;
  const axisH = 1.35 * u;
  const detectH = run.hasDetect ? 2.1 * u : 0;
  const stripH = (tight ? 0.42 : roomy ? 1.15 : 1.05) * u;
  // The columns are drawn as if the first one were at the left edge, and shifted: a step's column stays what it is.
  const x = (at) => (columnOf(at) - 1) * cell;
  const shift = gutter - first * cell;
  const [low, high] = [first * cell, W - shift];
  const laneY = new Map(ids.map((id, index) => [id, axisH + index * laneH]));
  if (run.hasDetect) laneY.set("detect", axisH + ids.length * laneH);
  const cellY = (id) => laneY.get(id) + (id === "detect" ? 0.15 * u : stripH + (tight ? 0.3 : 0.25) * u);
  const cellH = laneH - stripH - 0.42 * u;
  return {
    u, W, gutter, cell, first, shownLast, isWindow, isPhone, tight, roomy, ids, more, laneH, stripH, x, shift, low, high, laneY, cellY, cellH,
    H: axisH + ids.length * laneH + detectH + 0.2 * u, heightOf: (id) => (id === "detect" ? detectH - 0.35 * u : cellH),
    xEdge: (at) => Math.min(Math.max(x(at), low), high), columns: run.spans.slice(first + 1, shownLast + 1), horizon: isFuture ? run.last : here,
  };
}

/** The last step of a column. */
const stepsUpTo = (column) => (column === 0 ? 0 : run.spans[column]?.to ?? run.last);

function showLanes() {
  const at = laneLayout();
  const { u, W, H, ids, x, shift, first, cell, shownLast } = at;
  const still = [];
  const out = [];
  const marked = isTree ? tellingStep() : here;
  // the column of this step
  if (marked > 0 && columnOf(marked) > first) still.push(`<rect class="now" x="${f1(x(marked) + shift)}" y="0" width="${f1(cell)}" height="${f1(H)}"/>`);
  out.push(...axisOf(at, marked));
  for (const id of ids) {
    const y = at.laneY.get(id);
    still.push(`<line class="rule" x1="0" x2="${W}" y1="${f1(y)}" y2="${f1(y)}"/>`, laneHead(id, y, at));
    out.push(...laneStrip(id, y, at), ...waitsOf(id, at));
  }
  if (run.hasDetect) {
    const y = at.laneY.get("detect");
    still.push(`<line class="rule" x1="0" x2="${W}" y1="${f1(y)}" y2="${f1(y)}"/>`, `<text class="lane-name soft" x="${f1(0.2 * u)}" y="${f1(y + 1.35 * u)}">${at.isPhone ? "search" : "deadlock search"}</text>`);
  }
  out.push(...arrowsOf(at));
  for (const span of at.columns) out.push(...cardsOf(span, at, marked));
  if (isTree && !isWhole() && here === run.last) out.push(...nextMoves(at));
  if (at.more > 0) still.push(`<text class="tick" x="${f1(0.2 * u)}" y="${f1(0.95 * u)}">+ ${at.more} more</text>`);
  const label = `Steps ${run.done + (run.spans[first + 1]?.from ?? 1)} to ${run.done + stepsUpTo(shownLast)}`;
  putDrawing("lanes", { width: `${W}`, height: `${f1(H)}`, viewBox: `0 0 ${W} ${f1(H)}`, role: "group", "aria-label": label }, [{ shift: 0, parts: still }, { shift, parts: out }]);
  document.body.dataset.lanes = ids.length;
  $("slider").hidden = !at.isWindow;
}

/** The numbers of the steps over their columns. */
function axisOf({ u, x, cell, columns }, marked) {
  const out = [];
  const every = widthOf(String(run.done + run.last), 0.95 * u) > cell * 0.8 ? 5 : 1;
  for (const { from, to } of columns) {
    const [number, isHere] = [run.done + from, columnOf(marked) === columnOf(from)];
    if (every > 1 && !isHere && (number % every || Math.abs(columnOf(from) - columnOf(marked)) < 2)) continue;
    const text = fitting([from < to ? `${number}\u2013${run.done + to}` : `${number}`], cell * 1.15, 0.95 * u) || `${number}`;
    out.push(`<text class="tick${isHere ? " at" : from > here ? " later" : ""}" x="${f1(x(from) + cell / 2)}" y="${f1(0.95 * u)}" text-anchor="middle">${text}</text>`);
  }
  return out;
}

/** The bars along a lane while its transaction waits. */
function waitsOf(id, { x, cell, low, high, cellY, cellH, horizon }) {
  const out = [];
  for (const wait of run.waitings.get(id)) {
    if (wait.from > horizon) continue;
    const to = wait.to !== null && wait.to <= horizon ? x(wait.to) + cell / 2 : x(Math.min(horizon, run.last) + 1);
    const [left, right] = [Math.max(x(wait.from) + cell / 2, low), Math.min(to, high)];
    if (right <= left) continue;
    out.push(`<rect class="waiting" x="${f1(left)}" y="${f1(cellY(id) + cellH * 0.16)}" width="${f1(right - left)}" height="${f1(cellH * 0.68)}"/>`);
  }
  return out;
}

/** The arrows up and down in the columns of their steps. */
function arrowsOf({ u, x, cell, columns, laneY, cellY, heightOf, horizon }) {
  const out = [];
  for (const { from: at } of columns) {
    if (at > horizon) break;
    run.arrows[at].forEach((it, index) => {
      if (!laneY.has(it.from) || !laneY.has(it.to)) return;
      const isDown = laneY.get(it.from) < laneY.get(it.to);
      const spread = run.arrows[at].length > 1 ? (index - (run.arrows[at].length - 1) / 2) * Math.min(0.7 * u, cell / 4) : 0;
      const ax = x(at) + cell / 2 + spread;
      const y1 = isDown ? cellY(it.from) + heightOf(it.from) : cellY(it.from);
      const isDepends = it.kind === "depends";
      const y2 = isDown ? cellY(it.to) + (isDepends ? 0 : heightOf(it.to) * 0.38) : cellY(it.to) + heightOf(it.to) * (isDepends ? 1 : 0.62);
      const tip = 0.62 * u;
      out.push(`<g class="flow ${it.kind}"><title>${esc(ARROWS[it.kind](nameOf(it.to)))}</title><line x1="${f1(ax)}" x2="${f1(ax)}" y1="${f1(y1)}" y2="${f1(isDown ? y2 - tip : y2 + tip)}"/><path d="${arrowTip(ax, y2, !isDown, tip)}"/></g>`);
    });
  }
  return out;
}

/** What an arrow of each kind says of the transaction that it goes to. */
const ARROWS = { free: (name) => `${name} may go on`, abort: (name) => `${name} must abort`, depends: (name) => `commits only if ${name} does` };

/** The cards of a column: of one step, or one for each transaction that asks again in it. */
function cardsOf(span, at, marked) {
  const isNext = span.from === here + 1 && !isTree;
  if (span.from > at.horizon && !isNext) return [];
  if (span.from === span.to) {
    const step = run.steps[span.from - 1];
    return cardOf(span.from, step, step.name === null ? "detect" : run.ids.get(step.name), at, marked, null);
  }
  return [...askedAgain(span.from)].flatMap(([id, count]) => cardOf(span.to, run.steps[span.from - 1], id, at, marked, count));
}

/** A card; `again`: how often the transaction asks again in its column, or null for a card of one step. */
function cardOf(number, step, id, at, marked, again) {
  const { u, x, cell, laneY, cellY, heightOf, tight, roomy } = at;
  if (!laneY.has(id)) return [];
  const isCovered = number > here && !(isFuture && !isPredict);
  const isHere = columnOf(number) === columnOf(marked);
  const kind = isCovered ? "ghost" : kindOf(step);
  const size = (roomy && cell > 5 * u ? 1.1 : tight ? 0.94 : CARD.size) * u;
  const inner = cell - CARD.padding * u;
  const h = heightOf(id);
  const ops = again === null ? (LABELS[step.op] ?? [step.op]) : ["asks again", "again"];
  const about = step.args.length ? (step.op === "scan" ? [`b ${step.args[0]}`] : [step.args[0]]) : [""];
  const details = isCovered ? (again === null ? about : [""]) : again === null ? detailOf(step) : [timesSaid(again), `${again}\u00d7`];
  const long = again === null && !isCovered ? longCard(step) : null;
  const top = long ? fitting(long.tops, inner + 0.14 * u, size, 600) : fitting(ops, inner, size, 600) || ops.at(-1);
  const bottom = fitting(long ? long.bottoms : [...details, details.at(-1).slice(0, 5) + "\u2026"], inner + 0.14 * u, size * 0.975);
  const cx = x(number) + cell / 2;
  const said = again === null ? `step ${run.done + number}: ${step.name ?? ""} ${step.event}${isCovered ? "" : `, ${step.reply}`}` : `steps up to ${run.done + number}: ${nameOf(id)} asks again ${timesSaid(again)}`;
  const line = (text, y, name) => `<text x="${f1(cx)}" y="${f1(cellY(id) + y)}" text-anchor="middle" class="${name}"${tight ? ` style="font-size:${f1(name === "op" ? size : size * 0.975)}px"` : ""}>${esc(text)}</text>`;
  const [one, two, three] = [h / 2 + 0.34 * u, h / 2 - (tight ? 0.12 : 0.14) * u, h / 2 + (tight ? 0.8 : 0.9) * u];
  const lines = id === "detect" ? line(isCovered ? "?" : fitting(detailOf(step), inner, size, 600), one, "op") : !bottom ? line(top, one, "op") : line(top, two, "op") + line(bottom, three, "detail");
  return [`<g class="cell ${kind}${isHere ? " here" : ""}${number > here ? " later" : ""}" data-at="${number}" role="button"${isHere ? ' tabindex="0"' : ""} aria-label="${esc(said)}"${isHere ? ' aria-current="step"' : ""}><rect x="${f1(x(number) + 0.1 * u)}" y="${f1(cellY(id))}" width="${f1(cell - 0.2 * u)}" height="${f1(h)}" rx="${f1(0.3 * u)}"/>${lines}</g>`];
}

/** In the explorer: the moves that may come next, each in its lane. */
function nextMoves({ u, x, cell, laneY, cellY, cellH, tight }) {
  const node = tree.nodes[tree.path.at(-1)];
  const done = movesDone(node.index);
  return node.next.map((next, who) => {
    const id = run.ids.get(tree.names[who]);
    if (next === undefined || !laneY.has(id)) return "";
    const words = tree.moves[who][done[who]].split(/,? /);
    const cx = x(run.last + 1) + cell / 2;
    const inner = cell - CARD.padding * u;
    const [op, about] = [fitting(LABELS[words[0]] ?? [words[0]], inner, CARD.size * u, 600), fitting([words.slice(1).join(" "), words.slice(1).join("="), words[1] ?? ""], inner, 0.93 * u)];
    const [two, three] = [cellY(id) + cellH / 2 - 0.14 * u, cellY(id) + cellH / 2 + (tight ? 0.78 : 0.9) * u];
    return `<g class="cell ghost next" data-next="${next}" role="button" tabindex="0" aria-label="${esc(tree.names[who])} moves: ${esc(words.join(" "))}${isJoin(tree, node.index, next) ? `, ${esc(joinSaid(next))}` : ""}"><rect x="${f1(x(run.last + 1) + 0.1 * u)}" y="${f1(cellY(id))}" width="${f1(cell - 0.2 * u)}" height="${f1(cellH)}" rx="${f1(0.3 * u)}"/><text class="op" x="${f1(cx)}" y="${f1(two)}" text-anchor="middle">${esc(op)}</text><text class="detail" x="${f1(cx)}" y="${f1(three)}" text-anchor="middle">${esc(about)}</text></g>`;
  }).filter(Boolean);
}

/** The head of a lane: name, its short form where it has one, level, and those of its fields that say something. */
function laneHead(id, y, { laneH: h, gutter, u, isPhone, tight }) {
  const it = run.txn(id, here);
  const short = shortOf(id);
  const tokenW = short === it.name || isPhone ? 0 : widthOf(short, 0.9 * u, 700) + 0.6 * u;
  const room = gutter - tokenW - 0.8 * u;
  const big = [1.5 * u, 1.2 * u, 0.95 * u].find((size) => widthOf(it.name, size, 700) <= room) ?? 0.95 * u;
  const name = fitting([it.name, it.name.slice(0, 9) + "\u2026", it.name.slice(0, 5) + "\u2026", short], room, big, 700) || short;
  const parts = [`<g class="head ${colourOf(id)}" data-txn="${id}" role="button" tabindex="0" aria-label="transaction ${esc(it.name)}, ${esc(it.level)}, ${esc(it.state)}: all its fields">`];
  parts.push(`<rect class="hit" x="0" y="${f1(y)}" width="${f1(gutter - 0.3 * u)}" height="${f1(h)}"/>`);
  parts.push(`<text class="lane-name" x="${f1(0.2 * u)}" y="${f1(y + 1.35 * u)}" style="font-size:${f1(big)}px">${esc(name)}</text>`);
  const after = 0.2 * u + widthOf(name, big, 700) + 0.5 * u;
  if (tokenW) parts.push(`<g class="token"><rect x="${f1(after - 0.1 * u)}" y="${f1(y + 0.42 * u)}" width="${f1(tokenW)}" height="${f1(1.15 * u)}" rx="${f1(0.55 * u)}"/><text x="${f1(after - 0.1 * u + tokenW / 2)}" y="${f1(y + 1.32 * u)}" text-anchor="middle" style="font-size:${f1(0.9 * u)}px">${esc(short)}</text></g>`);
  const next = after + (tokenW ? tokenW + 0.3 * u : 0);
  const level = fitting([it.level, `${it.level.slice(0, 7)}\u2026`, `${it.level.slice(0, 4)}\u2026`, ""], gutter - next - 0.3 * u, 0.95 * u);
  const state = it.kind === "not" ? "not begun" : it.kind === "active" && it.finished ? "finished" : it.kind;
  if (isPhone) {
    if (it.waits || it.commits) parts.push(`<text class="lane-facts" x="${f1(0.2 * u)}" y="${f1(y + 2.7 * u)}"><tspan class="warn">waits ${it.waits || it.commits}</tspan></text>`);
    return parts.join("") + "</g>";
  }
  if (level) parts.push(`<text class="lane-level" x="${f1(next)}" y="${f1(y + 1.35 * u)}">${esc(level)}</text>`);
  const said = [];
  if (it.begin) said.push(`begin ${it.begin}`);
  if (it.end) said.push(`end ${it.end}`);
  if (it.waits) said.push(`<tspan class="warn">waits ${it.waits}</tspan>`);
  if (it.commits) said.push(`<tspan class="warn">depends ${it.commits}</tspan>`);
  if (it.doomed && it.kind !== "aborted") said.push(`<tspan class="bad">must abort</tspan>`);
  const front = tight || (level && !said.length) ? state : level ? "" : it.level;
  const facts = [front, ...(tight ? said.slice(-1) : said)].filter(Boolean);
  // What has no room beside the cards: the last fact tells most.
  while (facts.length > 1 && widthOf(facts.join(" \u00b7 ").replace(/<[^>]*>/g, ""), u) > gutter - 0.3 * u) facts.shift();
  parts.push(`<text class="lane-facts" x="${f1(0.2 * u)}" y="${f1(y + (tight ? 2.5 : 2.75) * u)}">${facts.join(" \u00b7 ")}</text>`);
  return parts.join("") + "</g>";
}

const PHASES = { active: ["active", "act\u2026"], finished: ["finished", "fin\u2026"], preparing: ["preparing", "prep\u2026"], committed: ["committed", "com\u2026"], aborted: ["aborted", "abo\u2026"] };

/** The parts of the strip of a lane: its phases, each with its pattern and, where lanes are high, its name. */
function laneStrip(id, y, { stripH: h, x, xEdge, first, shownLast, horizon, u, cell, tight }) {
  const list = run.phases.get(id);
  const out = [];
  const lastShown = stepsUpTo(Math.min(shownLast, columnCount()));
  const top = y + (tight ? 0.15 : 0.2) * u;
  list.forEach((phase, index) => {
    if (phase.kind === "none" || phase.from > horizon) return;
    const until = Math.min(list[index + 1]?.from ?? Infinity, horizon + 1, run.last + 1);
    const isOpen = !(list[index + 1]?.from <= horizon);
    const from = Math.max(phase.from, 1);
    if (columnOf(until) <= first || from > lastShown) return;
    const [left, right] = [xEdge(from) + (columnOf(from) > first ? cell * 0.12 : 0), xEdge(until) + (until <= lastShown ? cell * 0.12 : 0)];
    if (right <= left) return;
    if (phase.kind === "terminated") { out.push(`<line class="over" x1="${f1(left)}" x2="${f1(right)}" y1="${f1(top + h / 2)}" y2="${f1(top + h / 2)}"/>`); return; }
    out.push(`<rect class="strip ${phase.kind}${isOpen ? " open" : ""}" x="${f1(left)}" y="${f1(top)}" width="${f1(right - left)}" height="${f1(h)}"><title>${phase.kind}</title></rect>`);
    const text = tight ? "" : fitting(PHASES[phase.kind], right - left - 0.6 * u, 0.95 * u, 600);
    if (text) out.push(`<g><rect class="plate ${phase.kind}" x="${f1(left + 0.2 * u)}" y="${f1(y + 0.28 * u)}" width="${f1(widthOf(text, 0.95 * u, 600) + 0.4 * u)}" height="${f1(h - 0.16 * u)}"/><text class="phase ${phase.kind}" x="${f1(left + 0.4 * u)}" y="${f1(y + 0.2 * u + h * 0.78)}">${text}</text></g>`);
  });
  return out;
}
