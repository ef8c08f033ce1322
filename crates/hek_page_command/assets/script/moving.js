/* ================================================================ moving */

function show() {
  if (isLevels && levels.shown === null) { document.body.dataset.position = 0; showLevels(); return; }
  document.body.dataset.position = run.done + here;
  $("position").textContent = positionSaid();
  document.querySelector('[data-do="first"]').disabled = document.querySelector('[data-do="back"]').disabled = here === 0;
  document.querySelector('[data-do="on"]').disabled = document.querySelector('[data-do="last"]').disabled = here === run.last && guess === null;
  const slider = $("slider");
  slider.max = run.last;
  slider.value = here;
  slider.setAttribute("aria-valuetext", `after step ${run.done + here} of ${run.done + run.last}`);
  $("about").hidden = isSpoilerHidden();
  document.body.toggleAttribute("data-ring", !isTree && hasRing());
  showLanes();
  showSay();
  if (isTree) showTree();
  if (!isFar()) showChains();
  showGraph();
  if ((!isTree || pinned) && !isFar()) showWord();
  showScore();
  tellParent();
}

/** How far the page is: in steps; in the explorer, whose step is the one of the move that tells most, in moves. */
function positionSaid() {
  const place = isTree ? placeHere() : 0;
  return isTree && endsOfPath()[place] === here ? `${place} / ${total(tree.moves.map((it) => it.length))}` : `${run.done + here} / ${run.done + run.last}`;
}

/** Goes to a position; `order` is the one that was asked for, where the page shows another one. */
function move(position, order = asked) {
  here = Math.min(Math.max(position, 0), run.last);
  asked = order !== null && here >= endsOfPath()[order.length] ? order : null;
  show();
  clearTimeout(telling);
  telling = setTimeout(tellAddress, 120);
}

/** The place, as the address has it: the number of steps done; in the explorer the moves, and the step where one isn't over. */
function placeSaid() {
  if (!isTree) return String(run.done + here);
  const level = !isLevels ? "" : levels.shown === null ? "" : `${LEVELS[levels.shown]}:`;
  if (isLevels && level === "") return "";
  return level + askedTo(tree.path.length - 1).join(".") + (here < run.last ? "@" + here : "");
}

let telling = 0;
function tellAddress() {
  // A page that is a text within another one has no address of its own.
  if (location.protocol !== "about:") history.replaceState(null, "", "#" + placeSaid());
  const step = here > 0 ? run.steps[here - 1] : null;
  document.title = step && !coveredStep() ? `${run.done + here} ${step.name ? step.name + " " : ""}${step.event} \u2192 ${step.reply} \u00b7 ${data.title}` : `${data.title} \u00b7 Hek`;
}

/** One step on: where replies are guessed the next one is covered first. */
function on() {
  if (guess !== null) { guess = null; move(positionOn(here)); return; }
  if (here === run.last) { show(); return; }
  if (isPredict && !isTree && isAsked(run.steps[here]) && !told.answers.has(here)) { guess = here; show(); return; }
  move(positionOn(here));
}

function back() {
  if (guess !== null) { guess = null; show(); return; }
  const to = positionBack(here);
  if (asked !== null && to < endsOfPath()[asked.length]) goToAsked(asked.length - 1);
  else move(to);
}

function jump(position, order = asked) { guess = null; move(position, order); }

function press(name, isOn) { document.querySelector(`[data-do="${name}"]`).setAttribute("aria-pressed", String(isOn)); }

const DOES = {
  first: () => jump(0), last: () => jump(run.last), back, on,
  levels: () => leaveLevel(),
  secret: () => { isSecret = !isSecret; press("secret", isSecret); show(); },
  predict: () => { if (isTree) return DOES.secret(); isPredict = !isPredict; guess = null; if (isPredict) { isFuture = false; press("future", false); } press("predict", isPredict); show(); },
  future: () => { isFuture = !isFuture; press("future", isFuture); show(); },
  present: () => { const isOn = document.documentElement.classList.toggle("present"); press("present", isOn); resized(); },
  far: () => { document.documentElement.classList.toggle("far"); resized(); },
  theme: () => { const isDark = document.documentElement.dataset.theme ? document.documentElement.dataset.theme === "dark" : matchMedia("(prefers-color-scheme: dark)").matches; document.documentElement.dataset.theme = isDark ? "light" : "dark"; tellParent(); },
  help: () => tell(HELP), legend: () => tell(legend()), picture: () => savePicture(),
  pin: () => {
    const its = run.versionIds.filter((v) => run.version(v, here)).map(Number).sort((a, b) => a - b);
    if (!its.length) return;
    pinned = { v: its[(its.indexOf(pinned?.v ?? -1) + 1) % its.length] };
    show();
  },
  fields: () => { const step = run.steps[here - 1]; tellTxn(step?.name ? run.ids.get(step.name) : run.txnIds[0]); },
  unpin: () => { pinned = null; show(); },
  undo: () => { const place = placeHere(); if (place > 0) goToOrder(askedTo(place - 1)); },
  story: () => { if (storyPage) (isTree ? tellLeaf() : storyPage.close(run.done + here)); },
  graph: () => { isGraphShown = !isGraphShown; showGraph(); },
  blank: () => { $("blank").hidden = !$("blank").hidden; tellParent(); },
};

const HELP = `<h2>Keys</h2><table><tr><td><kbd>\u2192</kbd> <kbd>\u2193</kbd> <kbd>Space</kbd> <kbd>Page Down</kbd><td>one step on<tr><td><kbd>\u2190</kbd> <kbd>\u2191</kbd> <kbd>Shift Space</kbd> <kbd>Page Up</kbd><td>one step back
<tr><td><kbd>Home</kbd> <kbd>End</kbd><td>to the start, to the end<tr><td><kbd>1</kbd> .. <kbd>9</kbd>, then <kbd>Enter</kbd><td>to that step (at a question or in the explorer: that choice)<tr><td><kbd>?</kbd><td>guess each reply before it is shown
<tr><td><kbd>f</kbd><td>show the steps to come<tr><td><kbd>p</kbd><td>larger type<tr><td><kbd>l</kbd><td>for the last row: the step, the lanes and the waits alone, as large as they go<tr><td><kbd>d</kbd><td>light or dark<tr><td><kbd>w</kbd><td>the words of the next version, pinned until <kbd>Esc</kbd><tr><td><kbd>t</kbd><td>all fields of the transaction that moves<tr><td><kbd>g</kbd><td>what bars, arrows and short names mean<tr><td><kbd>i</kbd><td>save this step as one picture, SVG<tr><td><kbd>.</kbd> <kbd>b</kbd><td>blank the screen<tr><td><kbd>Backspace</kbd><td>explorer: take a move back<tr><td><kbd>Esc</kbd><td>unpin a word</table>
<p>A click on a step goes there; on a version it shows its words; on a name all fields of that transaction. Swipe left and right on a touch screen. The address ends in the step: <code>#6</code>.</p>`;

function tell(html) { $("dialog-body").innerHTML = html; $("dialog").showModal(); }

function tellTxn(id) {
  const it = run.txn(id, here);
  const names = (list) => list.map((one) => nameOf(one)).join(", ") || "none";
  const rows = [["level", it.level], ["state", it.state], ["begin time", it.begin ?? "none"], ["end time", it.end ?? "none"], ["WaitForCounter", it.waits], ["CommitDepCounter", it.commits], ["NoMoreWaitFors", it.finished ? "set" : "clear"], ["AbortNow", it.doomed ? "set" : "clear"],
    ["read set", it.reads.map((v) => "v" + v).join(", ") || "none"], ["write set", it.writes.map((one) => one.replace(/^(\w)(\w+)-(\d+)/, (all, a, b, v) => `${a.toUpperCase()}${b} of v${v}`)).join(", ") || "none"], ["bucket locks", it.buckets.join(", ") || "none"], ["WaitingTxnList", names(it.waiting)], ["CommitDepSet", names(it.dependents)]];
  tell(`<h2>${tag(id)} after step ${run.done + here}</h2><table>${rows.map(([name, said]) => `<tr><th scope="row">${name}<td>${esc(said)}`).join("")}</table>`);
}

let digits = "";
const MOVES = { ArrowRight: 1, ArrowDown: 1, PageDown: 1, ArrowLeft: -1, ArrowUp: -1, PageUp: -1 };
const LETTERS = { "?": "predict", f: "future", p: "present", l: "far", d: "theme", h: "help", w: "pin", t: "fields", g: "legend", i: "picture", ".": "blank", b: "blank", m: "story" };

/** The keys of the story, and of the page that has it. */
function storyKey(event) {
  const { key } = event;
  if (key === "d") DOES.theme();
  else if (key === "b" || key === ".") DOES.blank();
  else if (!storyPage.player.key(event)) return;
  event.preventDefault();
}

function onKey(event) {
  if (event.ctrlKey || event.altKey || event.metaKey) { tellPrint(event); return; }
  const { key } = event;
  // A dialog is shut by whatever a presenter's remote sends; Tab and Enter stay with it.
  if ($("dialog").open) {
    if (key === "Escape" || key === "h" || key === "g" || key in MOVES) { $("dialog").close(); event.preventDefault(); }
    return;
  }
  if (!$("blank").hidden) { DOES.blank(); event.preventDefault(); return; }
  if (storyPage?.isOpen) { storyKey(event); return; }
  if (key === " " && event.target.tagName === "BUTTON") return;
  if (key === " ") (event.shiftKey ? back : on)();
  else if (key in MOVES) (MOVES[key] > 0 ? on : back)();
  else if (key === "Home") jump(0);
  else if (key === "End") jump(run.last);
  else if (key === "Escape" && (digits || pinned)) { digits = ""; DOES.unpin(); }
  else if (key === "Backspace" && isTree) DOES.undo();
  else if (/^\d$/.test(key)) onDigit(key);
  else if (key === "Enter" && digits) { jump(Number(digits) - run.done); digits = ""; }
  else if (key === "Enter" && event.target.closest("g[tabindex]")) event.target.dispatchEvent(new MouseEvent("click", { bubbles: true }));
  else if (key in LETTERS && (key !== "m" || storyPage)) DOES[LETTERS[key]]();
  else { tellKey(event); return; }
  event.preventDefault();
}

function onDigit(key) {
  const button = coveredStep() ? document.querySelectorAll("[data-choice]")[key - 1] : isTree ? [...document.querySelectorAll("button[data-next]")].find((it) => it.querySelector("kbd").textContent === key) : null;
  if (button) { button.click(); return; }
  if (isTree || coveredStep()) return;
  digits = (digits + key).slice(-5);
  $("position").textContent = `${digits}\u2026`;
}

document.addEventListener("keydown", onKey);
document.addEventListener("click", (event) => {
  const hit = (attribute) => event.target.closest(`[${attribute}]`);
  const does = hit("data-do");
  const button = event.target.closest("button");
  if (button && event.detail > 0) button.blur();
  if (does) return DOES[does.dataset.do]();
  const at = hit("data-at");
  if (at) return jump(Number(at.dataset.at));
  const version = hit("data-v");
  if (version) { const v = Number(version.dataset.v); pinned = pinned?.v === v ? null : { v }; return show(); }
  const txn = hit("data-txn");
  if (txn) return tellTxn(txn.dataset.txn);
  const choice = hit("data-choice");
  if (choice) return choose(choice.dataset.choice);
  const rule = hit("data-rule");
  if (rule) { const [name, said] = ruleOf(run.steps[here - 1]); return tell(`<h2>${esc(name)}</h2><p>${esc(said)}</p><p class="soft">docs/RULES.md, "Every reply"</p>`); }
  const level = hit("data-level");
  if (level) return goToLevel(Number(level.dataset.level), level.dataset.outcome);
  const next = hit("data-next");
  if (next) return takeMove(Number(next.dataset.next));
  const crumb = hit("data-crumb");
  if (crumb) return goToAsked(Number(crumb.dataset.crumb));
  const find = hit("data-find");
  if (find) return findOutcome(Number(find.dataset.find));
});
$("skip").addEventListener("click", (event) => { event.preventDefault(); $("said").focus(); });
$("slider").addEventListener("input", () => jump(Number($("slider").value)));
$("blank").addEventListener("click", () => DOES.blank());
for (const kind of ["hashchange", "popstate"]) addEventListener(kind, () => goToHash());

let touch = null;
addEventListener("touchstart", (event) => { touch = event.touches.length === 1 && !event.target.closest("#path, input") ? { x: event.touches[0].clientX, y: event.touches[0].clientY } : null; }, { passive: true });
addEventListener("touchend", (event) => {
  if (!touch || storyPage?.isOpen) return;
  const [dx, dy] = [event.changedTouches[0].clientX - touch.x, event.changedTouches[0].clientY - touch.y];
  if (Math.abs(dx) > 50 && Math.abs(dx) > 2 * Math.abs(dy)) (dx < 0 ? on : back)();
  touch = null;
});

/* ---- in a frame: the page around it learns where this one is, and sends it elsewhere */

const isFramed = parent !== window;
/** Whether the page around this one has asked where it is: nothing is told to one that hasn't. */
let isWatched = false;
let isGoing = false;

/** What stays from one page to the next. */
function modesNow() {
  const all = document.documentElement;
  return { present: all.classList.contains("present"), far: isFar(), theme: all.dataset.theme ?? "", ...(isTree ? { secret: isSecret } : { predict: isPredict, future: isFuture }) };
}

/** Tells the page around this one the place, the modes, and for each guess its step and whether it was right. `isOver`: an order has come to its end here;
    `went`: it was sent here. */
function tellParent(went = false) {
  if (!isFramed || isGoing || !isWatched) return;
  const guesses = [...told.answers].map(([at, reply]) => [run.done + at + 1, reply === run.steps[at].reply]);
  parent.postMessage({ hek: "place", place: placeSaid(), modes: modesNow(), isBlank: !$("blank").hidden, guesses, isOver: isTree && isWhole() && here === run.last, went }, "*");
}

/** A key that means nothing here is one for the page around this one, if that hasn't sent it. */
function tellKey({ key }) { if (isFramed && isWatched && !isGoing) parent.postMessage({ hek: "key", key }, "*"); }

/** The page around this one is printed in its place. */
function tellPrint(event) {
  if (!isFramed || event.key !== "p" || event.altKey) return;
  event.preventDefault();
  tellKey({ key: "print" });
}

function takeModes(modes) {
  if (/^(light|dark)$/.test(modes.theme)) document.documentElement.dataset.theme = modes.theme;
  for (const [name, isOn] of Object.entries(modesNow())) if (name !== "theme" && name in modes && modes[name] !== isOn) DOES[name]();
}

/** Takes a message of the known form: an object of modes, a place, a key that is pressed. */
function go({ modes, place, key, isShift }) {
  if (modes !== null && typeof modes === "object") takeModes(modes);
  if (typeof place === "string") fromHash(place);
  if (typeof key === "string") document.body.dispatchEvent(new KeyboardEvent("keydown", { key, shiftKey: isShift === true, bubbles: true }));
}

addEventListener("message", ({ source, data: sent }) => {
  if (!isFramed || source !== parent || sent?.hek !== "go") return;
  isWatched = true;
  isGoing = true;
  go(sent);
  isGoing = false;
  tellParent(true);
});
