/* ================================================================ the same moves at all levels */

const isLevels = sheet.kind === "levels";
/** The levels in the order of the trees. */
const LEVELS = ["serializable", "repeatable", "snapshot"];
/** The trees at the levels, which level's explorer is shown (null: the table of all), and the order that stands in three columns. */
const levels = { trees: [], shown: null, order: [] };

function plantLevels() {
  levels.trees = sheet.trees.map(treeOf);
  const marked = outcomesAtLevels().find(({ outcome, counts }) => !isGood(outcome) && counts.some(Boolean)) ?? outcomesAtLevels()[0];
  const at = marked.counts.findIndex(Boolean);
  levels.order = orderTo(levels.trees[at], placeOf(sheet.trees[at], marked.text));
}

/** The place among a tree's outcomes of the one with a text. */
const placeOf = (its, text) => its.outcomes.findIndex((it) => outcomeText(it) === text);

/** Each outcome, with its text and how many orders have it at each level. */
function outcomesAtLevels() {
  const all = new Map(sheet.trees.flatMap((it) => it.outcomes).map((it) => [outcomeText(it), it]));
  return [...all].map(([text, outcome]) => ({ text, outcome, counts: sheet.trees.map((it, at) => levels.trees[at].nodes[0].counts[placeOf(it, text)] ?? 0) }));
}

/** The first order of a tree that has an outcome: the names of those that move. */
const orderTo = (its, outcome) => movesOn(its, 0, outcome).order;

/** The steps of an order at a level that tell something, and its outcome. */
function columnAt(at) {
  const its = levels.trees[at];
  const path = pathOf(its, levels.order);
  const steps = path.flatMap((node) => its.nodes[node].steps).map((it) => eventOf(it.line)).filter((it) => /^(read|scan|insert|update|delete|precommit|commit|fail)$/.test(it.op) || it.op === "detect").filter(isNews());
  const lines = steps.map((it) => `<li class="${kindOf(it)}"><b class="t c${Math.max(its.names.indexOf(it.name), 0) % 6}">${esc(it.name ?? "")}</b> ${esc(it.event)} <span aria-hidden="true">\u2192</span> <b>${esc(it.reply)}</b></li>`);
  const outcome = its.nodes[path.at(-1)].outcome;
  const other = askedOf(its, path, levels.order) === null ? "" : `<p class="joined">${JOINS} Shown as ${esc(namesOf(its, path).join(" "))}, which ends the same.</p>`;
  return `<section><h3>${LEVELS[at]} <button type="button" data-level="${at}">story</button></h3>${other}<ol>${lines.join("")}</ol><p class="ends">${outcome === null ? "" : endsSaid(sheet.trees[at].outcomes[outcome])}</p></section>`;
}

/** Whether a step says what its transaction hasn't said last. */
function isNews() {
  const last = new Map();
  return ({ name, event, reply }) => { const said = `${event} ${reply}`; const isNew = last.get(name) !== said; last.set(name, said); return isNew; };
}

/** An outcome in words: how each transaction ends, the rows, and the verdict. */
function endsSaid(outcome) {
  return `${esc(endsAndRows(outcome))}; <b class="${isGood(outcome) ? "good" : "bad"}">${esc(verdictOf(outcome))}</b>`;
}

function showLevels() {
  const orders = total(levels.trees[0].nodes[0].counts);
  const rows = outcomesAtLevels().map(({ text, outcome, counts }) => {
    const cells = counts.map((count, at) => (count ? `<td class="n"><button type="button" data-level="${at}" data-outcome="${esc(text)}" aria-label="${count} orders at ${LEVELS[at]}, show one of: ${esc(text)}">${count}</button></td>` : '<td class="n none">0</td>'));
    return `<tr>${cells.join("")}<td>${endsSaid(outcome)}</td></tr>`;
  });
  $("levels").innerHTML = `<p class="plain long">${esc((isSecret ? data.question : data.about) || "The same moves, with all transactions at one level.")}</p>
    <table><caption>${orders} orders of the moves at each level. A number shows the story of one of them.</caption><thead><tr>${LEVELS.map((it) => `<th scope="col">${it}</th>`).join("")}<th scope="col">ends, rows, verdict</th></tr></thead><tbody>${isSecret ? "" : rows.join("")}</tbody></table>
    <h2>One order: ${levels.order.map(esc).join(" ")}</h2><div class="columns">${isSecret ? "" : LEVELS.map((it, at) => columnAt(at)).join("")}</div>`;
}

/** Goes to the story of the order that stands in the columns, or of the first one whose outcome has a text, at a level. */
function goToLevel(at, text) {
  if (text !== undefined) levels.order = orderTo(levels.trees[at], placeOf(sheet.trees[at], text));
  takeLevel(at);
  tree.path = pathOf(tree, levels.order);
  run = runOfPath();
  move(0, askedOf(tree, tree.path, levels.order));
}

function takeLevel(at) {
  levels.shown = at;
  data = sheet.trees[at];
  tree = levels.trees[at];
  pinned = null;
  document.body.classList.remove("levels");
  measure();
}

/** Back to the table of all levels. */
function leaveLevel() {
  if (!isLevels) return;
  levels.order = [...namesOf(tree, tree.path), ...movesOn(tree, tree.path.at(-1)).order];
  levels.shown = null;
  document.body.classList.add("levels");
  show();
}
