// ---- the story of the text: its plays come from the page, where they are stored, or from the machine

const NAME = "schedule.hek", LOG = "log.jsonl";
const {storyOf} = Story.story, {WRITTEN} = Story.view, {parse} = Story.text, {playOfLog, isLog} = Story.log;
// So many models are kept.
const MOST_MODELS = 24;
const models = new Map();

const objects = out => out.trim().split("\n").filter(Boolean).map(parse);
const isBad = it => Story.story.verdictKind(it.verdict) === "not" || (it.breaks !== undefined && it.breaks !== null);

// ---- stored plays

let stored = null;

// The plays of the schedules that the page has, by name: {outcomes, plays}.
async function unpackPlays() {
  const packed = $("plays").textContent.trim();
  if (!packed) return stored = {};
  const bytes = Uint8Array.from(atob(packed), char => char.charCodeAt(0));
  return stored = JSON.parse(await new Response(new Blob([bytes]).stream().pipeThrough(new DecompressionStream("gzip"))).text());
}

const storedOf = schedule => schedule === original() ? stored?.[opened] : undefined;

// ---- what the machine says

// A text that has what its schedule asks of the machine: `run --auto` begins and ends by itself.
const isOwnEnds = schedule => !schedule.split("\n").filter(isStep).some(it => /^\s*\S+\s+begin\b/.test(it)) || isProgram(schedule);

// The outcomes of all orders by level, with an order of each; `said` is why there are none. With `--explain` the program says how far it is.
async function outcomesOf(schedule) {
  const got = await hek(["permute", "--levels", "--json", "--explain", NAME], {[NAME]: schedule});
  if (got.isEnded) return got;
  if (got.status !== 0) return {outcomes: {}, said: got.err.split("\n")[0].replace(/^hek: (permute: )?/, "")};
  return {outcomes: byLevel(objects(got.out)), said: ""};
}

// The outcomes of a table of all levels: for each level how many orders there are, and the outcomes that some of them have.
function byLevel([head, ...rows]) {
  const all = head.orders === undefined ? [head, ...rows] : rows, found = {};
  for (const level of LEVELS) {
    const its = all.filter(it => Number(it.levels[level]) > 0).map(it => ({...it, orders: Number(it.levels[level]), first: it.first[level]}));
    found[level] = {orders: its.reduce((sum, it) => sum + it.orders, 0), outcomes: its};
  }
  return found;
}

// One order at the levels of the text and at each level.
async function playsOf(schedule, order) {
  const got = await hek(["permute", "--order", order.join(" "), "--levels", "--json", NAME], {[NAME]: schedule});
  return got.status === 0 ? objects(got.out).filter(it => it.kind === "play") : null;
}

// ---- a model

// What is told of a schedule in one order; without `order` in the one that it opens with. Answers {model}, {err} or {isEnded}.
async function modelOf(schedule, order) {
  const key = JSON.stringify([schedule, order ?? null, opened]);
  if (models.has(key)) return {model: models.get(key)};
  const made = isLog(schedule) ? await logModel(schedule, key) : await scheduleModel(schedule, order, key);
  if (!made.model) return made;
  models.set(key, made.model);
  if (models.size > MOST_MODELS) models.delete(models.keys().next().value);
  return made;
}

const isSame = (one, other) => one?.join(" ") === other?.join(" ");

async function scheduleModel(schedule, order, key) {
  const its = storedOf(schedule), wanted = order ?? its?.opens.order;
  const plays = its?.plays.filter(it => isSame(it.order, wanted)) ?? [];
  if (plays.length) return {model: modelFrom(key, schedule, plays, its.outcomes, its.opens, "")};
  if (!wasm) return {err: "The machine isn't loaded yet."};
  return playedModel(key, schedule, order);
}

// A model that the machine plays.
async function playedModel(key, schedule, order) {
  const isAuto = isOwnEnds(schedule), run = await hek(["run", ...(isAuto ? ["--auto"] : []), "--moves", "--json", "--explain", NAME], {[NAME]: schedule});
  if (run.isEnded) return run;
  if (run.status !== 0) return {err: run.err};
  const [written] = objects(run.out), {outcomes, said, isEnded} = await outcomesOf(schedule);
  if (isEnded) return {isEnded};
  const opens = opening(outcomes, written, isAuto), wanted = order ?? opens.order;
  const plays = await playsOf(schedule, wanted) ?? (order ? await playsOf(schedule, opens.order) : null) ?? [];
  const isOwn = !isAuto && isSame(wanted, written.order);
  return {model: modelFrom(key, schedule, isOwn || !plays.length ? [...plays, written] : plays, outcomes, opens, said)};
}

// Where a text opens: at the weakest level that has an outcome that is broken or not serializable, with an order of that; otherwise as it is written.
function opening(outcomes, written, isAuto) {
  const levels = new Set(written.levels), own = levels.size === 1 ? written.levels[0] : WRITTEN;
  for (const level of isAuto ? [...LEVELS].reverse() : []) {
    const bad = outcomes[level]?.outcomes.find(isBad);
    if (bad) return {level, order: bad.first};
  }
  return {level: own, order: written.order};
}

// `plays` of one order: one for each level, whose `level` is its word, or null as the text has it. Of two for one level the last counts.
function modelFrom(key, schedule, plays, outcomes, opens, said) {
  const own = plays.at(-1), isMixed = new Set(own.names.map((_, t) => plays.find(it => it.level === null)?.levels[t] ?? own.levels[t])).size > 1, stories = {};
  for (const play of plays) stories[play.level ?? (new Set(play.levels).size === 1 ? play.levels[0] : WRITTEN)] = storyOf(play, schedule);
  const levels = [...(isMixed && stories[WRITTEN] ? [WRITTEN] : []), ...LEVELS].filter(it => stories[it]);
  return {id: key, title: title(), text: schedule, ...wordsOf(schedule), stories, outcomes, levels, order: own.order ?? [], opens, isOwnOrder: isSame(own.order, opens.order), uncounted: said, ...lessonOf(schedule)};
}

// The comments above the first line with words: what it is about, and what it asks.
function wordsOf(schedule) {
  const said = {about: [], question: []};
  for (const line of schedule.split("\n")) {
    if (!line.trim()) continue;
    if (!isComment(line)) break;
    const isAsked = /^\s*#\?/.test(line);
    said[isAsked ? "question" : "about"].push(line.replace(/^\s*#\??\s?/, "").trim());
  }
  return {about: said.about.join(" "), question: said.question.join(" ")};
}

// What is said beside the run of a schedule that the page has. It stays where the text was changed, as far as its moves are there.
function lessonOf() {
  const it = SCHEDULES.find(other => other.name === opened);
  return it ? {intro: it.intro, asides: it.asides, after: it.after} : {asides: [], after: opened === "own" ? OWN_PROSE : ""};
}

// ---- logs

async function logModel(schedule, key) {
  const answers = storedOf(schedule)?.answers ?? await answersTo(schedule);
  if (answers.err || answers.isEnded) return answers;
  const stories = {}, lesson = lessonOf();
  for (const it of answers) if (it.level || !stories.serializable) stories[it.level ?? "serializable"] ??= storyOf(playOfLog(schedule, it));
  return {model: {id: key, title: title(), text: schedule, about: stories.serializable.about, question: "", stories, outcomes: {}, levels: ["serializable"], order: [], opens: {level: "serializable", order: []}, isOwnOrder: true,
    uncounted: "", isLog: true, ...lesson, intro: `${lesson.intro ?? ""}${ladderHtml(answers.filter(it => it.level), answers[0])}`}};
}

// What `hek history` says of a log as serializable, and at all levels.
async function answersTo(schedule) {
  const all = [];
  for (const words of [["--level", "serializable"], ["--levels"]]) {
    if (!wasm) return {err: "The machine isn't loaded yet."};
    const got = await hek(["history", ...words, "--json", "--explain", LOG], {[LOG]: schedule});
    if (got.isEnded) return got;
    const its = objects(got.out);
    if (!its.length || its.some(it => it.kind === "fault")) return {err: got.err};
    all.push(...its);
  }
  return all;
}

// At which levels a log holds: each has its story. A level holds in some order of commits, where `own` goes by the end times.
function ladderHtml(answers, own) {
  const {esc} = Story.text, seen = new Set(), rungs = answers.filter(it => !seen.has(it.level) && seen.add(it.level));
  const said = it => it.verdict === "holds" || /^serializable/.test(it.verdict) ? "✓ holds" : it.verdict === "unknown" ? "unknown" : `<b class="not">✗ ${esc(it.anomaly ?? "fails")}</b>`;
  return rungs.length ? `<table class="ladder">${rungs.map(it => `<tr><td><button type="button" class="rung" data-level="${esc(it.level)}">${esc(it.level)}</button></td><td>${said(it)}</td></tr>`).join("")}</table>` : "";
}

// ---- what is shown

// The story's place: its level, its step, what is open, and whether each move is asked for; null until the first model.
let now = {level: null, step: 0, mode: "", asks: false}, wantedOrder = null, model = null, turn = 0, isOld = false, player = null;

const settled = () => $("st-main").getAttribute("aria-busy") === "false";

// Tells the text in the order that is wanted. A call that a later one ended tells nothing.
async function tell(options) {
  const mine = ++turn, schedule = text.value;
  $("st-main").setAttribute("aria-busy", "true");
  if (!storedOf(schedule)) working();
  const made = await modelOf(schedule, wantedOrder);
  if (mine !== turn || made.isEnded) return;
  worked();
  $("st-main").setAttribute("aria-busy", "false");
  isOld = !made.model && model !== null;
  showFaults(made.model ? "" : made.err ?? "");
  $("st-main").classList.toggle("stale", isOld);
  if (!made.model) return;
  model = made.model;
  if (!model.stories[now.level]) now.level = model.stories[model.opens.level] ? model.opens.level : model.levels[0];
  draw(options);
  performance.mark("story");
}

// Draws the model at its place.
function draw(options) {
  if (!model) return;
  const most = model.stories[now.level].columns.length + 1;
  now.step = Math.max(0, Math.min(now.step, most));
  // What isn't shown has no width: the story is drawn when it is.
  $("st-main").hidden = panel !== null;
  player.show(model, now, options);
  $("st-back").hidden = !(history.state?.depth > 0);
  // Where moves are asked for, the machine would tell them.
  $("st-machine").hidden = model.isLog === true || now.asks;
  markLine();
  changedNote();
  tellAddress();
}

// The line of the move, or of the invariant that it breaks, in the text.
function markLine() {
  const {story} = player, column = story?.columns[now.step - 1], isEnd = now.step > (story?.columns.length ?? 0), broken = isEnd ? story?.verdict.breaks : column?.breaks;
  markAt((broken ?? column?.line ?? 0) - 1, broken !== null && broken !== undefined);
}

// Goes to another place of the story, with an entry of the browser's history for another level or order.
function goTo(change, isEntry = false, options = {}) {
  if (change.mode === "machine" && now.asks) return undefined;
  if (isEntry) enter();
  if (change.mode === "" && panel) closePanel();
  const {order, ...rest} = change;
  now = {...now, ...rest};
  if (change.mode === "machine" || panel === "machine") {
    player.place = now;
    return openMachine();
  }
  if (order) wantedOrder = order;
  if (order && !isSame(order, model?.order)) return tell(options);
  return draw(options);
}

// The story goes to the move of a line of the text.
function goToLine(at) {
  const index = player.story?.columns.findIndex(it => it.line === at + 1) ?? -1;
  if (index >= 0) goTo({step: index + 1});
}
