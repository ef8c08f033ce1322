/* ================================================================ the tree of all orders (explorer) */

const isTree = data.kind === "tree";
let tree = null;
/** The names of those that move in the order that was asked for, where the page shows another one after which the same can happen; else null. */
let asked = null;

/** The names of those that move up to a place, as they were asked for. */
const askedTo = (place) => [...(asked ?? []), ...namesOf(tree, tree.path).slice(asked?.length ?? 0)].slice(0, place);

/** The tree in some data. Where it has a node for each state, a move may join the state of a node whose parent is another: the path to a node
    is the first order that comes to it, and its steps are those of that order. */
function treeOf(data) {
  const text = (at) => data.texts[at];
  const steps = data.steps.map(([line, changed, gone, why, sees, ends, rule, sentence, definition, comes, waits]) => ({
    line: text(line), changed: text(changed), gone: text(gone), why: text(why), sees: text(sees), waits: waits === undefined ? null : text(waits), ends: text(ends), rule: text(rule),
    sentence: text(sentence), definition: text(definition), comes: text(comes),
  }));
  const nodes = data.nodes.map(([parent, who, places, [outcome = null], counts, joins = []], index) => ({ index, parent, who: who - 1, steps: places.map((at) => steps[at]), outcome, next: [], counts, joins, own: new Set() }));
  for (const node of nodes.slice(1)) nodes[node.parent].next[node.who] = node.index;
  for (const node of nodes) for (const [who, joined] of node.joins) node.next[who - 1] = joined;
  // the outcomes to which moves lead from a node without a join
  for (const node of [...nodes].reverse()) {
    if (node.outcome !== null) node.own.add(node.outcome);
    for (const outcome of node.own) nodes[node.parent].own.add(outcome);
  }
  return { nodes, names: data.names, moves: data.moves, path: [0], isMerged: nodes.some((it) => it.joins.length > 0) };
}

/** The path to a node, from the start. */
function pathTo(its, at) {
  const path = [at];
  while (path[0] > 0) path.unshift(its.nodes[path[0]].parent);
  return path;
}

/** The names of those that move along a path. */
const namesOf = (its, path) => path.slice(1).map((at) => its.names[its.nodes[at].who]);

/** Whether a move from one node to another joins. */
const isJoin = (its, at, next) => its.nodes[next].parent !== at;

/** The path to the node at which an order arrives, as far as there are such moves. */
function pathOf(its, order) {
  let at = 0;
  for (const name of order) {
    const next = its.nodes[at].next[its.names.indexOf(name)];
    if (next === undefined) break;
    at = next;
  }
  return pathTo(its, at);
}

/** As much of an order as a path has, if the path is that of another order; else null. */
function askedOf(its, path, order) {
  const part = order.slice(0, path.length - 1);
  return part.join() === namesOf(its, path).join() ? null : part;
}

/** The first moves from a node to the end, without a join where that can be: to an outcome, or to any. `order` has the names of those that move,
    `last` the last node, `joined` how many moves there are up to the last that joins. */
function movesOn(its, at, outcome = null) {
  const order = [];
  let [node, joined] = [its.nodes[at], 0];
  while (node.next.length) {
    const ways = node.next.filter((it) => it !== undefined && (outcome === null || its.nodes[it].counts[outcome] > 0));
    const next = ways.find((it) => !isJoin(its, node.index, it) && (outcome === null || its.nodes[it].own.has(outcome))) ?? ways[0];
    order.push(its.names[node.next.indexOf(next)]);
    if (isJoin(its, node.index, next)) joined = order.length;
    node = its.nodes[next];
  }
  return { order, last: node.index, joined };
}

/** How many moves of each transaction have come at a node. */
function movesDone(node) {
  const done = tree.names.map(() => 0);
  for (let at = node; at > 0; at = tree.nodes[at].parent) done[tree.nodes[at].who]++;
  return done;
}

function runOfPath() {
  const steps = tree.path.flatMap((at) => tree.nodes[at].steps);
  return new Run(data, steps, 0);
}

/** For each node of the path the position after it. */
function endsOfPath() {
  let at = 0;
  return tree.path.map((node) => (at += tree.nodes[node].steps.length));
}

/** The place in the path up to which all is done here. A move that does nothing ends where the one before it does. */
function placeHere() {
  const ends = endsOfPath();
  let place = 0;
  ends.forEach((end, index) => { if (end <= here) place = index; });
  return place;
}
