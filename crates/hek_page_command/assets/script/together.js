/* ---- who comes before whom */

const { verdictKind } = Story.story;

/** What is said of the committed transactions together, at the end of a run that isn't serializable by end time. */
function togetherHere() {
  const told = isTree || here !== run.last ? null : data.together;
  return told && verdictKind(told.verdict) !== "serial" ? told : null;
}

/** Whether the committed transactions can follow one another, with the order or with who comes before whom. */
function togetherSaid(byEnd) {
  const told = data.together;
  switch (verdictKind(told.verdict)) {
    case "serial": return `<b>yes</b>${byEnd ? `, by end time: ${byEnd}` : ""}`;
    case "other": return `<b>yes</b>, in another order: ${told.order.map(tagName).join(", then ")}${byEnd ? ` (by end time: ${byEnd})` : ""}`;
    case "not": return `<b>no</b>: ${told.cycle.length > 1 ? told.cycle.map(beforeSaid).join(", ") : esc(told.cycle[0]?.words ?? "no order")}`;
    default: return "not serializable by end time; whether in another order is unknown";
  }
}

const beforeSaid = ({ from, to }) => `${from === null ? "the opening" : tagName(from)} before ${to === null ? "the opening" : tagName(to)}`;

/** The pairs that are drawn: the edges of a cycle with the key that each is by, or each transaction of an order and the next. */
function beforesOf(told) {
  if (told.cycle) return told.cycle.filter((it) => it.from !== null && it.to !== null).map((it) => ({ from: it.from, to: it.to, by: it.key === null ? [] : [String(it.key)] }));
  return told.order.slice(1).map((to, index) => ({ from: told.order[index], to, by: [] }));
}

/** Draws who comes before whom in the place of who waits for whom. */
function showTogether(told) {
  const pairs = beforesOf(told).map((it) => ({ kind: "before", from: run.ids.get(it.from), to: run.ids.get(it.to), by: it.by, isHot: Boolean(told.cycle) }));
  const nodes = [...new Set(pairs.flatMap((it) => [it.from, it.to]))].sort((a, b) => a - b).slice(0, MOST_NODES);
  $("waits-title").innerHTML = `Who comes before whom <small>${told.cycle ? "in no order" : "in another order"}</small>`;
  $("graph-said").textContent = told.cycle ? told.cycle.map((it) => it.words).join("; ") : told.order.join(", then ");
  if (!nodes.length) { put("graph", ""); return; }
  const [W, H] = [sizes.graph[0], Math.max(sizes.graph[1], 2 * rem())];
  const at = graphLayout(nodes, W, H);
  const shown = pairs.filter((it) => at.spot.has(it.from) && at.spot.has(it.to));
  const shapes = shown.map((it) => {
    const both = shown.some((other) => other.from === it.to && other.to === it.from);
    return edgeShape(at.spot.get(it.from), at.spot.get(it.to), it, at.r, at.u, both, at.isFlat ? Math.abs(nodes.indexOf(it.from) - nodes.indexOf(it.to)) : 0);
  });
  putGraph(shapes, nodes.map((id) => graphNode(id, at, false)), at);
}
