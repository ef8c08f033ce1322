/* ================================================================ guessing */

/** Steps whose replies are worth a guess, where no text says which. */
const isTelling = (step) => /^(read|scan|insert|update|delete|precommit|commit|detect|release)$/.test(step.op) && step.r[0] !== "nothing";

/** Whether a step's reply is asked for: one above which a question stands, or where no step has one, each that tells something. */
function isAsked(step) {
  if (run.hasQuestions === undefined) run.hasQuestions = run.steps.some((it) => it.question);
  return run.hasQuestions ? Boolean(step.question) : isTelling(step) && !run.polls[run.steps.indexOf(step) + 1];
}

/** The step whose reply is covered, or null: the one after this position. */
function coveredStep() {
  return isPredict && !isTree && guess !== null ? run.steps[here] : null;
}

/** Whether the graph is covered: while a reply is asked for, until it is shown on demand. */
let isGraphShown = false;
const isGraphCovered = () => coveredStep() !== null && coveredStep() !== undefined && !isGraphShown;

/** Choices of a reply, one of them right, in an order that depends on the step alone. */
function choicesOf(step, at) {
  const options = new Set([step.reply]);
  for (const it of distractors(step, at)) if (options.size < 4) options.add(it);
  const mixed = [...options].map((it) => [it, [...`${at} ${it}`].reduce((sum, char) => (sum * 31 + char.charCodeAt(0)) % 9973, 7)]);
  return mixed.sort((a, b) => a[1] - b[1]).map((it) => it[0]);
}

/** Other replies that could come to such a step at the level of its transaction. */
function distractors(step, at) {
  if (step.op === "detect") return victims(step, at);
  const me = run.txn(run.ids.get(step.name), at);
  const isLocking = me.level !== "snapshot";
  const locked = isLocking ? ["aborted no-more-waits", "aborted no-more-reads"] : [];
  switch (step.op) {
    case "read": return [...valuesOf(step, at).filter((it) => it !== step.reply).slice(-2), "absent", ...locked];
    case "scan": return ["rows", step.reply.startsWith("rows ") ? step.reply.split(" ").slice(0, -1).join(" ") : "rows", ...locked];
    case "insert": return ["done", "exists", ...(isLocking ? locked : ["aborted conflict"])];
    case "update": case "delete": return ["done", "aborted conflict", "absent"];
    case "precommit": return precommits(me, at);
    case "commit": return ["committed", "waiting commits 1", "aborted cascade"];
    case "release": return releases(me, at);
    default: return [];
  }
}

/** What a read of a step's key could find: the values of its versions. */
function valuesOf(step, at) {
  const versions = [...run.past.keys()].filter((it) => it.startsWith("version ")).map((it) => run.get(it, at));
  return versions.filter((it) => it && it.key === step.args[0]).map((it) => `found ${it.value}`);
}

/** A transaction that never waits, since it has no write set, gets no `waiting`. */
function precommits(me, at) {
  const others = [`precommitted ${run.clock(at)}`, `precommitted ${run.clock(at) + 1}`, "aborted deadlock"];
  return me.writes.length || me.waits ? ["waiting 1", others[0], "waiting 2", "aborted deadlock"] : others;
}

function victims(step, at) {
  const its = run.txnIds.map((id) => run.txn(id, at)).filter((it) => it.kind === "active" && it.waits > 0).map((it) => it.id);
  const cycles = its.length < 2 ? [] : [...its].reverse().map((it) => `victim ${it} cycle ${[it, ...its.filter((id) => id !== it)].join(" ")}`);
  return ["no cycle", ...cycles.filter((it) => !step.reply.startsWith(it.split(" cycle")[0] + " "))];
}

function releases(me, at) {
  const reads = me.reads.flatMap((v) => { const w = run.version(v, at).writer; return [`released read ${v}`, ...(w ? [`released read ${v} writer ${w}`] : [])]; });
  return [...reads, ...me.buckets.map((it) => `released bucket ${it}`), "nothing"];
}

function replyInWords(reply) {
  return esc(reply).replace(/^victim (\d+) cycle.*$/, (all, id) => `victim ${nameOf(id)}`).replace(/writer (\d+)/, (all, id) => `\u2014 ${nameOf(id)} goes on`);
}

function showQuestion(step) {
  const me = step.name ? tagName(step.name) + " " : "";
  $("say").className = "asks";
  $("said").innerHTML = `<p class="event"><span class="num">${run.done + here + 1}</span> <code>${me}${esc(step.event)}</code> <span class="arrow">\u2192</span> <span class="cover">?</span></p>
    <p class="plain${(step.question ?? "").length > 92 ? " long" : ""}">${esc(step.question || "What is it answered?")}</p>`;
  $("because").innerHTML = `<div class="choices">${choicesOf(step, here).map((it, index) => `<button type="button" data-choice="${esc(it)}"><kbd>${index + 1}</kbd> ${replyInWords(it)}</button>`).join("")}</div>`;
}

function choose(reply) {
  const step = run.steps[here];
  const isRight = reply === step.reply;
  if (!told.answers.has(here)) {
    told.asked++;
    if (isRight) told.right++;
    told.answers.set(here, reply);
  }
  guess = null;
  move(positionOn(here));
}

function feedback() {
  const answer = told.answers.get(positionBack(here));
  if (!isPredict || answer === undefined) return "";
  const isRight = answer === run.steps[positionBack(here)].reply;
  return `<p class="told ${isRight ? "right" : "wrong"}">${isRight ? "\u2713 Right." : `\u2717 The guess was: ${replyInWords(answer)}.`}</p>`;
}

function showScore() {
  $("score").hidden = !isPredict;
  $("score").textContent = told.asked ? `${told.right} of ${told.asked} right` : "no guess yet";
}
