/* ---- who waits for whom */

/** How many transactions are drawn at most. */
const MOST_NODES = 8;

/** Whether three or more wait in a row or in a ring somewhere in the run: the panel is higher then. */
function hasRing() {
  if (run.hasRing === undefined) run.hasRing = run.waitsAt.some(([, waits]) => new Set(linesOf(waits).flatMap((it) => it.split(" ").slice(0, 2))).size > 2);
  return run.hasRing;
}

function showGraph() {
  const together = togetherHere();
  if (together && !isGraphCovered()) { showTogether(together); return; }
  const edges = run.edges(here).filter((it) => !isEnded(it.from));
  const step = here > 0 ? run.steps[here - 1] : null;
  const cycle = step?.r[0] === "victim" ? step.r.slice(3) : [];
  const live = run.txnIds.filter((id) => { const it = run.txn(id, here); return it.kind !== "not" && it.kind !== "terminated"; });
  const busy = new Set(edges.flatMap((it) => [it.from, it.to]));
  const near = nearby(step?.name ? run.ids.get(step.name) : cycle[0], edges, cycle);
  const nodes = live.length <= MOST_NODES ? live : near.length ? near : live.filter((id) => busy.has(id)).slice(0, MOST_NODES);
  const told = edges.map((it) => `${nameOf(it.from)} ${it.kind === "waits" ? "waits for" : "commits after"} ${nameOf(it.to)} (${it.by.join(", ")})`);
  $("graph-said").textContent = isGraphCovered() ? "" : told.join("; ") || "nobody waits";
  showGraphTitle(edges, nodes, 0);
  if (isGraphCovered()) { put("graph", `<p class="soft quiet">Hidden while you guess. <button type="button" data-do="graph">Show</button></p>`); return; }
  if (!nodes.length) { put("graph", ""); return; }
  const bare = drawGraph(nodes, edges, cycle, cycle.length ? step.r[1] : null);
  if (bare) showGraphTitle(edges, nodes, bare);
}

/** Whether a transaction has ended, so that it waits for nobody. */
const isEnded = (id) => ["aborted", "committed", "terminated"].includes(run.txn(id, here).kind);

/** Whether a transaction has asked for what it waits for. */
const hasAsked = (edge) => run.waitings.get(edge.from).some((it) => it.kind === "waits" && it.from <= here && (it.to === null || it.to > here));

/** The title, with what the lines don't say; `bare`: how many of them have no room for a label. */
function showGraphTitle(edges, nodes, bare) {
  const left = edges.filter((it) => !nodes.includes(it.from) || !nodes.includes(it.to)).length;
  const isWeak = edges.some((it) => it.kind === "waits" && !hasAsked(it) && run.txn(it.from, here).kind === "active");
  const isDotted = edges.some((it) => it.kind === "commits");
  const notes = [left ? `and ${left} waits of others` : "", isWeak ? "dashed: has not asked yet" : "", isDotted ? "dotted: may commit only after" : "", bare ? `${bare} without a label` : ""].filter(Boolean);
  const note = edges.length ? notes.join("; ") : "nobody";
  $("waits-title").innerHTML = `Who waits for whom${isGraphCovered() || !note ? "" : ` <small>${note}</small>`}`;
}

/** Where the nodes are: two side by side, more on an ellipse, or in a row where the panel is low or narrow. */
function graphLayout(nodes, W, H) {
  const count = nodes.length;
  const k = H < 3.4 * rem() ? Math.max(H / (3.4 * rem()), 0.6) : count > 2 && H < 8 * rem() ? 0.9 : Math.max(1, Math.min(1.35, H / (8 * rem()), W / (27 * rem())));
  const u = rem() * k;
  const r = count > 6 ? Math.min(1.02 * u, H / 8.4) : 1.25 * u;
  const isFlat = count > 2 && (H < (count > 4 ? 7.2 : 6.2) * u || W < 24 * rem());
  const isBelow = isFlat || (W < 26 * rem() && count <= 2);
  // in a very low panel the nodes have no room for words below them
  const isWide = count > 6 && !isFlat;
  const isLow = isBelow && H < 2 * r + 3.2 * u;
  const spot = new Map();
  const gap = isFlat ? Math.min((W - 5 * u) / (count - 1), 10 * u) : 0;
  if (count <= 2) nodes.forEach((id, index) => spot.set(id, { x: count === 1 ? W / 2 : W / 2 + (index ? 1 : -1) * Math.max(2.5 * u, Math.min(W / 2 - (isBelow ? 3 : 6.9) * u, 8 * u)), y: H / 2 - (isLow ? 0 : 0.3) * u }));
  else if (isFlat) nodes.forEach((id, index) => spot.set(id, { x: W / 2 + (index - (count - 1) / 2) * gap, y: Math.max(Math.min(H * 0.56, H - r - (isLow ? 0.1 : 1.55) * u), r) }));
  else {
    const [rx, ry] = [isWide ? Math.min(W / 2 - r - 0.8 * u, 26 * u) : Math.min(W / 2 - 7 * u, 11 * u), H / 2 - r - 0.4 * u];
    const turn = count % 2 === 0 ? Math.PI / count : 0;
    nodes.forEach((id, index) => {
      const angle = (2 * Math.PI * index) / count - Math.PI / 2 + turn;
      spot.set(id, { x: W / 2 + rx * Math.cos(angle), y: ry * Math.sin(angle) });
    });
    // the nodes take the whole height, though no node may be at the foot of the ellipse
    const ys = [...spot.values()].map((it) => it.y);
    const [low, high] = [Math.min(...ys), Math.max(...ys)];
    for (const it of spot.values()) it.y = r + 0.4 * u + ((it.y - low) / (high - low)) * 2 * ry;
  }
  return { u, r, W, H, isFlat, isBelow, isLow, isWide, spot, gap };
}

/** Draws the nodes and lines; answers how many lines have no label. */
function drawGraph(nodes, edges, cycle, victim) {
  const [W, H] = [sizes.graph[0], Math.max(sizes.graph[1], 2 * rem())];
  const at = graphLayout(nodes, W, H);
  const { u, r, spot, isFlat } = at;
  const inCycle = new Set(cycle.map((id, index) => `${id} ${cycle[(index + 1) % cycle.length]}`));
  const shapes = [];
  for (const edge of edges) {
    if (!spot.has(edge.from) || !spot.has(edge.to)) continue;
    const isHot = edge.kind === "waits" && inCycle.has(`${edge.from} ${edge.to}`);
    const both = edges.some((it) => it.from === edge.to && it.to === edge.from);
    shapes.push(edgeShape(spot.get(edge.from), spot.get(edge.to), { ...edge, isHot, isWeak: !isHot && edge.kind === "waits" && !hasAsked(edge) }, r, u, both, isFlat ? Math.abs(nodes.indexOf(edge.from) - nodes.indexOf(edge.to)) : 0));
  }
  return putGraph(shapes, nodes.map((id) => graphNode(id, at, victim === id)), at);
}

/** Puts lines, labels and nodes into the panel; answers how many lines have a label that has no room. */
function putGraph(shapes, circles, at) {
  const { u, W, H } = at;
  const heads = shapes.map((it) => it.head);
  // words that a line's head would cover are left out: the node's short form, and its title, still say whose it is
  for (const it of circles) if (heads.some((head) => isOver(head, it.box))) { it.svg = it.bare; it.box = { left: 0, right: 0, top: 0, bottom: 0 }; }
  placeLabels(shapes, circles.map((it) => it.box), at);
  const out = [...shapes.map((it) => it.line), ...shapes.map((it) => edgeLabel(it, u)), ...circles.map((it) => it.svg)];
  put("graph", `<svg width="${W}" height="${f1(H)}" viewBox="0 0 ${W} ${f1(H)}" style="font-size:${f1(u)}px" role="img" aria-labelledby="graph-said">${out.join("")}</svg>`);
  return shapes.filter((it) => it.label && !it.spot).length;
}

/** The words of a node at the left or right edge of a wide graph: above it, or below it in the lower half. */
function noteAtEdge(x, y, { u, r, W, H }, texts, isBad) {
  const side = x < W / 2 ? -1 : 1;
  return nodeNote(fitting(texts, W / 4, u), side < 0 ? Math.max(x - r, 2) : Math.min(x + r, W - 2), y < H / 2 ? y - r - 0.35 * u : y + r + 1.05 * u, side < 0 ? "start" : "end", u, isBad);
}

/** The words of a node, and the box that they take. */
function nodeNote(note, x, y, anchor, u, isBad) {
  const wide = widthOf(note, u);
  const left = anchor === "start" ? x : anchor === "end" ? x - wide : x - wide / 2;
  return { svg: `<text class="nodenote${isBad ? " bad" : ""}" x="${f1(x)}" y="${f1(y)}" text-anchor="${anchor}">${esc(note)}</text>`, box: { left, right: left + wide, top: y - 0.9 * u, bottom: y + 0.25 * u } };
}

/** A transaction: its name in the circle, or its short form there and its name beside it; the same without the words beside it, and the box of these. */
function graphNode(id, at, isHit) {
  const { u, r, W, isBelow, isLow, spot, gap } = at;
  const { x, y } = spot.get(id);
  const it = run.txn(id, here);
  const isDead = it.kind === "aborted";
  const [name, short] = [nameOf(id), shortOf(id)];
  const isWhole = name === short || (name.length <= 3 && widthOf(name, 1.2 * u, 700) < 2 * r - 0.4 * u);
  const out = [`<g class="node ${colourOf(id)}${isDead ? " dead" : ""}${isHit ? " victim" : ""}"><title>${esc(name)}</title><circle cx="${f1(x)}" cy="${f1(y)}" r="${f1(r)}"/><text class="nodename" x="${f1(x)}" y="${f1(y + 0.44 * u)}" text-anchor="middle">${esc(isWhole ? name : short)}</text>`];
  if (isDead) out.push(`<circle class="crossed" cx="${f1(x + r * 0.8)}" cy="${f1(y - r * 0.8)}" r="${f1(0.5 * u)}"/><path class="cross" d="M${f1(x + r * 0.8 - 0.22 * u)} ${f1(y - r * 0.8 - 0.22 * u)}l${f1(0.44 * u)} ${f1(0.44 * u)}m0 ${f1(-0.44 * u)}l${f1(-0.44 * u)} ${f1(0.44 * u)}"/>`);
  // the inner nodes of a wide graph have their words between them
  const side = (x < W / 2 - u ? -1 : 1) * (at.isWide ? -1 : 1);
  const phase = isHit ? "victim" : it.doomed && !isDead ? "must abort" : it.kind === "active" && it.finished ? "finished" : it.kind;
  const withNote = ({ svg, box }) => ({ svg: `${out.join("")}${svg}</g>`, bare: `${out.join("")}</g>`, box });
  if (at.isWide && Math.abs(x - W / 2) > W / 3.4) return withNote(noteAtEdge(x, y, at, isWhole ? [phase] : [name, short], isHit || it.doomed));
  const beside = [...spot.values()].filter((o) => (o.x - x) * side > 1 && Math.abs(o.y - y) < r + 0.55 * u).map((o) => Math.abs(o.x - x) - r);
  const room = isBelow ? (isLow ? 0 : Math.min((gap || 8 * u) - 0.3 * u, 2 * Math.min(x, W - x))) : (at.isWide ? Math.abs(x - W / 2) : Math.min(side < 0 ? x : W - x, ...beside)) - r - 0.45 * u;
  const note = fitting(isWhole ? [phase, ...[4, 3].map((count) => `${phase.slice(0, count)}\u2026`)] : [`${name}, ${phase}`, name], room, u);
  return withNote(nodeNote(note, isBelow ? x : x + side * (r + 0.35 * u), isBelow ? y + r + 1.1 * u : y + 0.33 * u, isBelow ? "middle" : side < 0 ? "end" : "start", u, isHit || it.doomed));
}

/** The transaction that moves, and some around it: first a cycle, then those that it waits for, and those that wait for it. */
function nearby(me, edges, cycle) {
  if (!me) return [];
  const found = new Set([me, ...cycle]);
  for (const it of edges) if (it.from === me) found.add(it.to);
  for (const it of edges) if (it.to === me) found.add(it.from);
  if (found.size === 1) return [];
  return [...found].slice(0, Math.max(MOST_NODES, cycle.length)).sort((a, b) => a - b);
}

/** What a line of each kind says. */
const EDGES = { waits: "waits for", commits: "commits after", before: "comes before" };

/** The line of an edge with its arrow head, the box of the head, the curve's three points, and the edge's label with its width. */
function edgeShape(a, b, edge, r, u, both, apart) {
  const [dx, dy] = [b.x - a.x, b.y - a.y];
  const far = Math.hypot(dx, dy) || 1;
  const [ux, uy] = [dx / far, dy / far];
  const bend = apart > 1 ? Math.max(Math.min((1 + apart / 2) * u, 2 * (a.y - r * 0.8 - 0.75 * u)), 0) : both ? 1.5 * u : 0.5 * u;
  const [nx, ny] = apart > 1 ? [0, -1] : [-uy, ux];
  const tip = 0.85 * u;
  const off = apart > 1 ? r * 0.8 : both ? 0.55 * u : 0.1 * u;
  const [near, nearer] = apart > 1 ? [r * 0.6, r * 0.75] : [r + 2, r + 3];
  const p = { x: a.x + ux * near + nx * off, y: a.y + uy * near + ny * off };
  const q = { x: b.x - ux * nearer + nx * off, y: b.y - uy * nearer + ny * off };
  const m = { x: (p.x + q.x) / 2 + nx * bend, y: (p.y + q.y) / 2 + ny * bend };
  const [tx, ty] = [q.x - m.x, q.y - m.y];
  const tl = Math.hypot(tx, ty) || 1;
  const [vx, vy] = [tx / tl, ty / tl];
  const end = { x: q.x - vx * tip * 0.8, y: q.y - vy * tip * 0.8 };
  const corners = [[0, 0], [-vx * tip - vy * tip * 0.55, -vy * tip + vx * tip * 0.55], [-vx * tip + vy * tip * 0.55, -vy * tip - vx * tip * 0.55]];
  const [xs, ys] = [corners.map((it) => q.x + it[0]), corners.map((it) => q.y + it[1])];
  const label = edge.kind === "commits" ? "depends" : edge.by.join(", ");
  const kind = `${edge.kind}${edge.isHot ? " hot" : ""}${edge.isWeak ? " weak" : ""}`;
  const said = `${nameOf(edge.from)} ${EDGES[edge.kind]} ${nameOf(edge.to)}${edge.by.length ? ` (${edge.by.join(", ")})` : ""}`;
  return {
    edge, kind, label, wide: widthOf(label, 0.95 * u, 600) + 0.5 * u, curve: [p, m, end], spot: null,
    head: { left: Math.min(...xs), right: Math.max(...xs), top: Math.min(...ys), bottom: Math.max(...ys) },
    line: `<g class="edge ${kind}"><title>${esc(said)}</title><path class="line" d="M${f1(p.x)} ${f1(p.y)}Q${f1(m.x)} ${f1(m.y)} ${f1(end.x)} ${f1(end.y)}"/>
    <path class="tip" d="M${f1(q.x)} ${f1(q.y)}l${f1(-vx * tip - vy * tip * 0.55)} ${f1(-vy * tip + vx * tip * 0.55)}l${f1(vy * tip * 1.1)} ${f1(-vx * tip * 1.1)}z"/></g>`,
  };
}

/** Where along its line a label may stand: the middle first, then further out. */
const LABEL_PLACES = [0.5, 0.45, 0.55, 0.4, 0.6, 0.35, 0.65, 0.3, 0.7, 0.25, 0.75, 0.2, 0.8, 0.15, 0.85];

const isOver = (a, b) => a.left < b.right && b.left < a.right && a.top < b.bottom && b.top < a.bottom;

/** Whether a box touches a circle. */
const isOnCircle = (box, { x, y }, r) => Math.hypot(Math.max(box.left - x, 0, x - box.right), Math.max(box.top - y, 0, y - box.bottom)) < r;

/** Gives each label a place on its line where it covers no node, no words of one, no arrow head and no other label. First come a cycle's, then
    those of the transaction that moves. A label that has no such place is left out; the title of its edge says it. */
function placeLabels(shapes, notes, { u, r, W, H, spot }) {
  const me = here > 0 ? run.ids.get(run.steps[here - 1].name) : undefined;
  const rank = ({ edge, wide }) => (edge.isHot ? 0 : edge.from === me || edge.to === me ? 1000 : edge.isWeak ? 3000 : 2000) + wide / u;
  const taken = [...notes, ...shapes.map((it) => it.head)];
  for (const shape of shapes.filter((it) => it.label).sort((a, b) => rank(a) - rank(b))) {
    const [p, m, end] = shape.curve;
    for (const t of LABEL_PLACES) {
      const along = (axis) => (1 - t) * (1 - t) * p[axis] + 2 * t * (1 - t) * m[axis] + t * t * end[axis];
      const [x, y] = [along("x"), along("y")];
      const box = { left: x - shape.wide / 2, right: x + shape.wide / 2, top: y - 0.65 * u, bottom: y + 0.65 * u };
      if (box.left < 0 || box.right > W || box.top < 0 || box.bottom > H) continue;
      if ([...spot.values()].some((it) => isOnCircle(box, it, r + 1)) || taken.some((it) => isOver(box, it))) continue;
      shape.spot = { x, y };
      taken.push(box);
      break;
    }
  }
}

/** The label of an edge, over a ground that hides the lines below it; none where it has no place. */
function edgeLabel({ kind, label, wide, spot }, u) {
  if (!spot) return "";
  const { x, y } = spot;
  return `<g class="edge ${kind}"><rect class="back" x="${f1(x - wide / 2)}" y="${f1(y - 0.65 * u)}" width="${f1(wide)}" height="${f1(1.3 * u)}"/><text x="${f1(x)}" y="${f1(y + 0.33 * u)}" text-anchor="middle">${esc(label)}</text></g>`;
}
