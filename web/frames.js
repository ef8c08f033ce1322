// ---- pages of hek in a frame: the machine at the steps of a move, the explorer; and the trace as text

// What lies over the story, or null: "machine", "explorer" or "trace".
let panel = null, frame = null, coming = null, framePlace = "", frameTurn = 0;
// The step to which the machine was sent last.
let sentTo = "";
// A page of hek has at most so many steps, and a longer trace is not drawn line by line.
const MOST_STEPS = 2000, MOST_LINES = 5000;
// A step after the last one of any story.
const LAST = 999999;
const NOT_LOADED = "The machine isn't loaded.";
// How a page is looked at, which stays from one page to the next.
let modes = {};

const send = (to, what) => to?.contentWindow.postMessage({hek: "go", ...what}, "*");

// The schedule of events of what is told: the text itself if it is written out, or the play of its order at its level.
async function eventsOf() {
  const schedule = text.value, isPlayed = isOwnEnds(schedule) || !model.isOwnOrder || now.level !== model.opens.level;
  if (!isPlayed) return schedule;
  const level = now.level === WRITTEN ? [] : ["--level", now.level];
  const got = await hek(["permute", "--order", model.order.join(" "), ...level, "--text", NAME], {[NAME]: schedule});
  return got.status === 0 ? got.out : null;
}

// Shows the panels of the machine at a step: at the last one of the move.
async function openMachine(step = Story.story.stepAfter(player.story, now.step)) {
  if (!wasm || model?.isLog) return sayPanel(model?.isLog ? "A log has no machine: an engine wrote it." : NOT_LOADED);
  openPanel("machine");
  sentTo = `${step}`;
  if (frame?.told === model.id + now.level) return send(frame, {place: `${step}`, modes});
  const mine = ++frameTurn, schedule = await eventsOf();
  if (schedule === null || mine !== frameTurn) return undefined;
  const got = await hek(["page", "--machine", "--title", title(), ...partOf(schedule, step), NAME], {[NAME]: schedule});
  if (got.status === 0 && mine === frameTurn && panel === "machine") showPage(got.out, `${step}`, model.id + now.level);
  return undefined;
}

// Of more steps than a page has, those around one.
function partOf(schedule, step) {
  const count = schedule.split("\n").filter(isStep).length;
  if (count <= MOST_STEPS) return [];
  const from = Math.max(1, Math.min(step - MOST_STEPS / 2, count - MOST_STEPS + 1));
  return ["--from", `${from}`, "--to", `${from + MOST_STEPS - 1}`];
}

async function openExplorer(path = "") {
  if (!wasm) return sayPanel(NOT_LOADED);
  openPanel("explorer");
  const mine = ++frameTurn, got = await hek(["page", "--machine", "--orders", "--title", title(), NAME], {[NAME]: atLevel(text.value, now.level)});
  if (mine !== frameTurn || panel !== "explorer" || got.isEnded) return;
  if (got.status === 0) showPage(got.out, path, "explorer");
  else sayPanel(/ nodes\n/.test(got.err) ? "There are too many orders for an explorer." : got.err);
}

const atLevel = (schedule, level) => level && level !== WRITTEN ? schedule.replace(/^(\s*txn\s+\S+)(\s+\S+)?/gm, (all, front) => `${front} ${level}`) : schedule;

async function openTrace() {
  if (!wasm) return sayPanel(NOT_LOADED);
  openPanel("trace");
  const schedule = await eventsOf();
  if (schedule === null) return;
  const got = await hek(["run", "--why", NAME], {[NAME]: schedule});
  if (panel !== "trace" || got.isEnded) return;
  const pre = document.createElement("pre"), all = (got.out || got.err).split("\n");
  if (all.length > MOST_LINES) pre.textContent = all.join("\n");
  else pre.append(...all.map(line => {
    const it = document.createElement(line.startsWith("  ") ? "span" : "b");
    it.textContent = line + "\n";
    return it;
  }));
  $("plain").replaceChildren(pre);
  reveal("plain");
}

function sayPanel(said) {
  openPanel(panel ?? "trace");
  const pre = document.createElement("pre");
  pre.textContent = said;
  $("plain").replaceChildren(pre);
  reveal("plain");
}

function reveal(name) {
  for (const it of ["frames", "plain"]) $(it).hidden = it !== name;
}

function openPanel(name) {
  panel = name;
  $("panel").hidden = false;
  $("st-main").hidden = true;
  $("st-machine").setAttribute("aria-pressed", name === "machine");
  document.body.dataset.panel = name;
}

// Back to the story; from the machine at the move that its step belongs to.
function closePanel() {
  if (panel === null) return;
  panel = null;
  delete document.body.dataset.panel;
  if ($("panel").contains(document.activeElement)) document.activeElement.blur();
  $("panel").hidden = true;
  if (now.mode === "machine") now.mode = "";
  draw();
}

// A page comes in a frame of its own, and takes the place of the one before it when it is ready: nothing flickers, and "back" is ours.
function showPage(html, place, told) {
  coming?.remove();
  const made = document.createElement("iframe");
  made.title = panel === "machine" ? "The machine, step by step" : "The explorer of all orders";
  made.className = "coming";
  made.told = told;
  made.sandbox = "allow-scripts allow-same-origin";
  made.onload = () => send(made, {modes: {...modes, theme: document.documentElement.dataset.theme ?? ""}, place});
  made.srcdoc = html;
  coming = made;
  reveal("frames");
  $("frames").append(made);
}

function arrived() {
  frame?.remove();
  [frame, coming] = [coming, null];
  frame.className = "";
}

addEventListener("message", ({source, data}) => {
  if (!data?.hek || source !== (coming ?? frame)?.contentWindow) return;
  if (data.hek === "key") return toldKey(String(data.key));
  if (data.hek !== "place" || (coming && !data.went)) return;
  if (coming) arrived();
  takeModes(data.modes ?? {});
  $("blank").hidden = !data.isBlank;
  const isThere = [framePlace, sentTo].includes(String(data.place));
  [framePlace, sentTo] = [String(data.place), ""];
  if (panel === "machine") followMachine(Number(framePlace), isThere);
  if (panel === "explorer" && data.isOver === true && !data.went && !modes.secret) tellExplored(framePlace.split("."));
  else tellAddress();
});

// A key that means nothing to the page in the frame: it isn't sent there again.
function toldKey(key) {
  if (key === "print") print();
  else pageKey({key, target: document.body, isTold: true, preventDefault() {}});
}

// The order at whose end the explorer is has its story, at the verdict; "back" is the explorer.
function tellExplored(order) {
  goTo({order, mode: "", step: LAST}, true);
}

// What stands beside the machine follows its step: the line, and the move to which it belongs, unless the machine was sent there from a move.
function followMachine(step, isThere) {
  const {story} = player, columns = story?.columns ?? [];
  markAt((columns.findLast(it => it.steps.some(other => other <= step))?.line ?? 0) - 1, false);
  if (!story) return;
  if (!isThere) now.step = Story.story.movesAt(story, step);
  player.place = now;
  player.showTold(story, false, !isThere);
  player.showState(story);
  $("st-prev").disabled = step === 0;
}

function takeModes({theme, ...its}) {
  modes = {...modes, ...its};
  if (theme) takeTheme(theme);
}
