/* ================================================================ the explorer */

/** In the explorer: the place of the step of this move that tells most, where the move is over here; else this step's. */
function tellingStep() {
  if (!isTree) return here;
  const ends = endsOfPath();
  const place = placeHere();
  if (ends[place] !== here || place === 0) return here;
  const first = ends[place - 1] + 1;
  let best = here;
  for (let at = here; at >= first; at--) if (weightOf(run.steps[at - 1]) > weightOf(run.steps[best - 1])) best = at;
  return best;
}

/** How much a step tells, beside others of its move. */
function weightOf(step) {
  return ({ victim: 6, failed: 5, waiting: 4, committed: 3 })[step.r[0]] ?? (step.r[0] === "aborted" ? (step.op === "precommit" ? 1 : 5) : /^(read|scan|insert|update|delete)$/.test(step.op) ? 2 : 0);
}

/** In the explorer: the events of the move up to here, each a button. */
function eventsOfMove(shown) {
  const ends = endsOfPath();
  let place = ends.findIndex((end) => end >= here);
  while (ends[place + 1] === ends[place] && place < placeHere()) place++;
  if (place < 1) return "";
  const first = ends.slice(0, place).reduce((most, it) => (it < here ? Math.max(most, it) : most), 0) + 1;
  const items = [];
  const all = [];
  for (let at = first; at <= Math.min(ends[place], run.last); at++) all.push(at);
  const telling = [...all].sort((a, b) => (b === shown) - (a === shown) || weightOf(run.steps[b - 1]) - weightOf(run.steps[a - 1])).slice(0, 4);
  for (const at of all) {
    if (!telling.includes(at)) continue;
    const step = run.steps[at - 1];
    items.push(`<button type="button" data-at="${at}" class="${kindOf(step)}${at > here ? " ahead" : ""}"${at === shown ? ' aria-current="step"' : ""}>${step.name ? tagName(step.name) + " " : ""}${esc(step.op)} \u2192 ${esc(step.reply)}</button>`);
  }
  if (items.length < 2) return "";
  return `<p class="events" aria-label="The events of this move">${items.join(" ")}${all.length > items.length ? ` <span class="soft">and ${all.length - items.length} more</span>` : ""}</p>`;
}

const total = (counts) => counts.reduce((sum, it) => sum + it, 0);
const isWhole = () => tree.nodes[tree.path.at(-1)].next.length === 0;

/** The rows at the end of an outcome. */
const rowsAtEnd = ({ rows }) => rows.map(([key, value]) => `${key}=${value}`).join(" ");

/** The ends and the rows of an outcome, as `hek permute` words them. */
const endsAndRows = (outcome) => [...outcome.ends.map(({ txn, end }) => `${txn} ${end}`), `rows ${rowsAtEnd(outcome)}`.trim()].join("; ");

/** The verdict of an outcome, and the line of the first invariant that it breaks. */
const verdictOf = ({ verdict, breaks }) => verdict + (breaks === undefined ? "" : `; breaks line ${breaks}`);

/** An outcome whole, as a line of `hek permute` has it. */
const outcomeText = (outcome) => `${endsAndRows(outcome)}; ${verdictOf(outcome)}`;

/** Whether an outcome is serializable, and breaks no invariant. */
const isGood = ({ verdict, breaks }) => breaks === undefined && verdictKind(verdict) !== "not";

/** How a transaction ends, in a sentence. */
const endSaid = (end) => (end === "committed" ? "commits" : end === "unended" ? "goes on" : `aborts (${end.replace("aborted ", "")})`);

/** An outcome in few words: of more than two transactions those that don't commit. A verdict that is serializable by end time isn't said. */
function outcomeOf(outcome) {
  const { ends, verdict, breaks } = outcome, isPlain = breaks === undefined && verdictKind(verdict) === "serial";
  const telling = ends.length > 2 ? ends.filter(({ end }) => end !== "committed") : ends;
  const said = telling.map(({ txn, end }) => `${tagName(txn)} ${endSaid(end)}`).join(", ") || "all commit";
  return `${said}<span class="soft"> \u00b7 ${esc(rowsAtEnd(outcome))}${isPlain ? "" : ` \u00b7 <b>${esc(verdictOf(outcome))}</b>`}</span>`;
}

/** An outcome for a line that may be cut: what differs among the outcomes alone, and first what tells it from those in which the same transactions commit. */
function tellingOf(outcome) {
  const differs = (outcomes) => (of) => new Set(outcomes.map(of)).size > 1, isTelling = differs(data.outcomes);
  const telling = ({ ends }) => ends.filter((_, t) => isTelling((it) => it.ends[t].end)), valueIn = ({ rows }, key) => rows.find((it) => it[0] === key)?.[1];
  const marks = (it) => telling(it).map(({ txn, end }) => `${shortTag(txn)} ${end === "committed" ? "\u2713" : end === "unended" ? "\u2013" : "\u2717"}`).join(" ");
  const isNeeded = differs(data.outcomes.filter((it) => marks(it) === marks(outcome)));
  const others = [
    ({ rows }) => rowsAtEnd({ rows: rows.filter(([key]) => isTelling((it) => valueIn(it, key))) }),
    (it) => telling(it).map(({ end }) => end).filter((end) => end.startsWith("aborted ")).map((end) => end.slice(8)).join(", "),
    (it) => verdictOf(it).replace("serializable in", "in"),
  ].filter(isTelling).sort((one, other) => isNeeded(other) - isNeeded(one));
  return [marks(outcome), ...others.map((of) => esc(of(outcome)))].filter(Boolean).join(" \u00b7 ") || outcomeOf(outcome);
}

const letterOf = (outcome) => "ABCDEFGHIJKLMNOPQRSTUVWXYZ"[outcome] ?? String(outcome);
let isSecret = false;

/** How many orders, and how many of them lead to each outcome where these are few and a choice has room for so many letters. */
function countsSaid(counts, room) {
  const orders = `${total(counts)} ${total(counts) === 1 ? "order" : "orders"}`;
  const each = counts.map((count, at) => (count ? `${count} ${letterOf(at)}` : "")).filter(Boolean);
  const whole = `${orders}: ${each.join(", ")}`;
  if (orders.length > room) return String(total(counts));
  return (counts.length > 3 && each.length > 1) || whole.length > room ? orders : whole;
}

/** The outcomes that have room, the possible ones first if not all have. */
function outcomesShown(counts) {
  const all = [...counts.keys()];
  const room = isSmall() ? all.length : Math.max(2, Math.floor((sizes.word[1] + 0.1 * rem()) / (1.95 * rem())));
  if (all.length <= 3 || all.length <= room) return all;
  return [...all].sort((a, b) => (counts[b] > 0) - (counts[a] > 0)).slice(0, room - 1).sort((a, b) => a - b);
}

function outcomeBar(counts) {
  if (isSecret) return "";
  return `<span class="share">${counts.map((it, at) => (it ? `<i class="o${at % 6}" style="flex:${it}"></i>` : "")).join("")}</span>`;
}

/** The mark of a move that joins. */
const JOINS = '<svg viewBox="0 0 20 16" class="icon" aria-hidden="true"><path d="M2 3.500c5 0 5 4.500 9 4.500M2 12.500c5 0 5 -4.500 9 -4.500h3" fill="none" stroke="currentColor" stroke-width="1.800"/><path d="M13 4.500v7l5 -3.500z"/></svg>';
const shortTag = (name) => `<b class="t ${colourOf(run.ids.get(name))}">${esc(shortOf(run.ids.get(name)))}</b>`;
const joinSaid = (next) => `joins the state after ${namesOf(tree, pathTo(tree, next)).join(" ")}`;
const statesSaid = () => (tree.isMerged ? `, ${tree.nodes.length} states` : "");

/** How many orders are left; where states are merged, at the start how many states there are. */
function ordersSaid(reach, place) {
  const all = total(tree.nodes[0].counts);
  if (tree.isMerged && place === 0) return `${all} orders${statesSaid()}`;
  return tree.isMerged && all > 1e9 ? `${reach} orders left` : `${reach} of ${all} orders left`;
}

/** Two orders of more moves are said without what they have in common at the start; their names, if they have more letters, in short. */
const MOST_MOVES = 8;
const MOST_LETTERS_SAID = 40;

/** That the page shows another order than the one that was asked for, where it begins to. */
function askedSaid() {
  if (asked === null || placeHere() !== asked.length || endsOfPath()[asked.length] !== here) return "";
  const shown = namesOf(tree, tree.path).slice(0, asked.length);
  const cut = asked.length > MOST_MOVES ? asked.findIndex((it, index) => it !== shown[index]) : 0;
  const isLong = 2 * asked.slice(cut).join(" ").length > MOST_LETTERS_SAID;
  const [one, other] = [asked, shown].map((order) => (cut > 0 ? "\u2026 " : "") + order.slice(cut).map(isLong ? shortTag : tagName).join(" "));
  const isOver = tree.nodes[tree.path[asked.length]].next.length === 0;
  return `<p class="joined">${JOINS} ${isOver ? `${one} ends as ${other} does: the page shows that order.` : `After ${one} the same can happen as after ${other}: the page goes on from there.`}</p>`;
}

function showTree() {
  const place = placeHere();
  const ends = endsOfPath();
  const node = tree.nodes[tree.path[place]];
  const isAt = ends[place] === here;
  const done = movesDone(node.index);
  // breadcrumbs
  const order = askedTo(tree.path.length - 1);
  const crumbs = order.map((name, index) => {
    const nth = order.slice(0, index).filter((it) => it === name).length;
    return `<button type="button" data-crumb="${index + 1}" class="${index + 1 <= place ? "" : "ahead"}"${index + 1 === place ? ' aria-current="true"' : ""}>${tagName(name)} ${esc(tree.moves[tree.names.indexOf(name)][nth])}</button>`;
  });
  $("path").hidden = false;
  $("path").innerHTML = `<button type="button" data-crumb="0"${place === 0 ? ' aria-current="true"' : ""}>start</button>${crumbs.map((it) => `<span aria-hidden="true">\u203a</span>${it}`).join("")}<span class="space"></span><button type="button" data-do="undo"${place === 0 ? " disabled" : ""} title="Backspace">\u21b6 undo</button>`;
  const current = $("path").querySelector('[aria-current="true"]');
  if (current) {
    const path = $("path"), covered = path.lastElementChild.offsetWidth + 8, last = current.offsetLeft + current.offsetWidth + covered - path.clientWidth;
    path.scrollLeft = Math.max(0, current.offsetLeft - path.clientWidth * 0.4, Math.min(current.offsetLeft, last));
  }
  // the choices
  const whole = node.next.length === 0;
  const reach = total(node.counts);
  const ways = node.next.filter((it) => it !== undefined).length;
  // More choices than have room beside one another: there may be so many where states are merged.
  const isCrowd = tree.isMerged && ways > 3;
  const room = !tree.isMerged ? Infinity : ways > 6 ? 12 : 20;
  const choices = node.next.map((next, who) => {
    if (next === undefined) return "";
    const it = tree.nodes[next];
    const move = tree.moves[who][done[who]];
    const isTaken = tree.path[place + 1] === next;
    const joins = isJoin(tree, node.index, next);
    const idle = (joins ? hasEnded(tree.names[who]) : it.steps.length === 0) ? ' <span class="soft">(has aborted)</span>' : "";
    return `<button type="button" class="choice${isTaken ? " taken" : ""}" data-next="${next}"${joins ? ` title="${esc(joinSaid(next))}"` : ""}><kbd>${who + 1}</kbd> <span>${joins ? `${JOINS} ` : ""}${(isCrowd ? shortTag : tagName)(tree.names[who])} <b>${esc(move)}</b>${idle}</span>${outcomeBar(it.counts)}<span class="count">${isSecret ? "" : countsSaid(it.counts, room)}</span></button>`;
  }).join("");
  const found = whole && isAt ? `<p class="whose">This order is complete.</p><p class="final">${outcomeOf(data.outcomes[node.outcome])}</p><p>All together: <b>${esc(verdictOf(data.outcomes[node.outcome]))}</b>. ${reachSaid(node)}</p>` : "";
  const inside = isAt ? "" : `<p class="whose">In the middle of a move</p><p>\u2192 goes on with it.</p>`;
  $("because").innerHTML = `<div class="moves">${found || inside || `<p class="whose">Who moves next?</p><div class="pick${tree.isMerged ? " merged" : ""}${isCrowd ? " crowd" : ""}" style="--n:${isCrowd ? Math.ceil(ways / 2) : Math.min(ways, 3)}">${choices}</div>`}</div>`;
  // the outcomes that can still be reached
  if (!pinned) {
    $("words-title").innerHTML = `Outcomes from here <small>${ordersSaid(reach, place)}</small>`;
    if (isSecret) $("words-title").textContent = "Outcomes: what do you think?";
    const shown = isSecret ? [] : outcomesShown(node.counts);
    const rowsOf = (say) => shown.map((at) => {
      const count = node.counts[at];
      return `<li class="${count ? "" : "out"}"><span class="n">${count}</span><span class="swatch o${at % 6}"></span><b>${letterOf(at)}</b><span class="what" title="${esc(outcomeText(data.outcomes[at]))}">${say(data.outcomes[at])}</span><button type="button" data-find="${at}"${count ? "" : " disabled"}>find one</button><span class="rail"><i class="o${at % 6}" style="width:${f1((100 * count) / Math.max(reach, 1))}%"></i></span></li>`;
    });
    const left = isSecret ? 0 : data.outcomes.length - shown.length;
    const digits = Math.max(...shown.map((at) => String(tree.nodes[0].counts[at]).length));
    const listed = (say, isMany) => put("word", `<ul class="outcomes${isMany ? " many" : ""}"${digits > 3 ? ` style="--digits:${digits}"` : ""}>${rowsOf(say).join("")}${left ? `<li class="rest soft">and ${left} more</li>` : ""}</ul>`);
    listed(outcomeOf, data.outcomes.length > 3);
    // Lines that are broken may need more room than there is.
    if (!isSmall() && $("word").scrollHeight > $("word").clientHeight + 2) $("word").firstElementChild.classList.add("many");
    if ([...$("word").querySelectorAll(".many .what")].some((it) => it.scrollWidth > it.clientWidth + 1)) listed(tellingOf, true);
  }
}

/** How common an outcome is. */
function reachSaid(node) {
  const [count, all] = [tree.nodes[0].counts[node.outcome], total(tree.nodes[0].counts)];
  return `${count} of all ${all} orders end so.`;
}

/** Whether a transaction has ended here. */
const hasEnded = (name) => ["aborted", "terminated"].includes(run.txn(run.ids.get(name), here).kind);

/** Goes on with a move; another one than the path had takes the rest of the path away, and one that joins all of it. */
function takeMove(next) {
  const place = placeHere();
  let order = asked;
  if (tree.path[place + 1] !== next) {
    const who = tree.nodes[tree.path[place]].next.indexOf(next);
    order = [...askedTo(place), tree.names[who]];
    tree.path = pathTo(tree, next);
    order = askedOf(tree, tree.path, order);
    run = runOfPath();
  }
  // A move of a transaction that has aborted does nothing.
  goToPlace(place + 1, order);
}

/** Goes to the end of the moves of an order, after which nothing has moved. */
function goToOrder(order) {
  tree.path = pathOf(tree, order);
  run = runOfPath();
  goToPlace(order.length, askedOf(tree, tree.path, order));
}

/** Goes to a place of the order that was asked for: what comes before the move that joined has steps of its own. */
function goToAsked(place) {
  if (asked !== null && place < asked.length) goToOrder(asked.slice(0, place));
  else goToPlace(place);
}

function goToPlace(place, order = asked) {
  move(endsOfPath()[place], order);
  if (place > 0 && tree.nodes[tree.path[place]].next.length === 0) tellLeaf();
}

/** Shows the moves from here to an outcome; if one of them joins, it is at the last that does. */
function findOutcome(outcome) {
  const place = placeHere();
  const before = askedTo(place);
  const { order, last, joined } = movesOn(tree, tree.path[place], outcome);
  tree.path = pathTo(tree, last);
  run = runOfPath();
  if (joined === 0) move(here);
  else goToPlace(place + joined, [...before, ...order.slice(0, joined)]);
}
