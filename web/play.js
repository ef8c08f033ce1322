// ---- what is typed and pressed

// What is typed is run when nothing was typed for so long, in milliseconds.
const PAUSE = 250;
let pause = null;

function later() {
  clearTimeout(pause);
  pause = setTimeout(() => { pause = null; tell(); }, PAUSE);
}

// What is typed by hand has a line that is being typed.
function typed(byHand) {
  if (isWriting) return;
  const {at} = caret();
  typesLine(byHand ? at : null);
  // Faults of other lines stay until the text is judged again, if they can still be where they were.
  notice = "";
  faults = byHand && counted === lines().length ? faults.filter(it => it.at !== at) : [];
  here = null;
  $("tip").hidden = true;
  drawLines();
  offer(false);
  keep("text:" + opened, opened === "shared" || text.value === original() ? null : text.value);
  if (opened === "own" || opened === "shared") packLater();
  if (panel) closePanel();
  changedNote();
  later();
}

function reset() {
  text.value = original();
  keep("text:" + opened, null);
  wantedOrder = null;
  notice = "";
  later();
}

function editorKey(event) {
  const isControl = (event.ctrlKey || event.metaKey) && !event.altKey;
  if (offersKey(event)) event.preventDefault();
  else if (isControl && event.key === " ") { event.preventDefault(); offer(true); }
  else if (isControl && event.key === "/") { event.preventDefault(); toggleComments(); }
  else if (isControl && event.key === "Enter") { event.preventDefault(); goToLine(caret().at); }
  else if (event.key === "F8") { event.preventDefault(); nextFault(event.shiftKey ? -1 : 1); }
  else if (event.key === "Escape" && $("tip").hidden) $("st-stage").focus();
  else if (event.key === "Escape") $("tip").hidden = true;
}

// A file that is dropped on an element is read as text.
function takesFiles(element, use) {
  element.addEventListener("dragover", event => event.preventDefault());
  element.addEventListener("drop", async event => {
    const [file] = event.dataTransfer.files;
    if (!file) return;
    event.preventDefault();
    use(await file.text());
  });
}

// ---- the shape of the page

const isBeside = () => !document.body.classList.contains("alone");

function showBeside(isShown) {
  if (isShown === isBeside()) return;
  document.body.classList.toggle("alone", !isShown);
  draw();
}

const themeNow = () => document.documentElement.dataset.theme || (matchMedia("(prefers-color-scheme: dark)").matches ? "dark" : "light");

function takeTheme(theme) {
  if (!/^(light|dark)$/.test(theme) || document.documentElement.dataset.theme === theme) return;
  document.documentElement.dataset.theme = theme;
  keep("theme", theme);
  if (frame) send(frame, {modes: {theme}});
}

async function fullScreen() {
  try {
    if (document.fullscreenElement) await document.exitFullscreen();
    else await document.documentElement.requestFullscreen();
  } catch {}
}

// The widths that the text may have, in parts of the window.
const NARROWEST = 0.18, WIDEST = 0.7, BY = 0.02;

function setWidth(part) {
  const width = Math.min(Math.max(part, NARROWEST), WIDEST);
  document.body.style.setProperty("--beside", `${(width * 100).toFixed(1)}%`);
  $("edge").setAttribute("aria-valuenow", Math.round(width * 100));
  keep("width", width);
  draw();
}

function startEdge() {
  const edge = $("edge"), width = () => $("st-beside").offsetWidth / innerWidth;
  if (kept("width")) setWidth(Number(kept("width")));
  edge.addEventListener("pointerdown", event => edge.setPointerCapture(event.pointerId));
  edge.addEventListener("pointermove", event => { if (edge.hasPointerCapture(event.pointerId)) setWidth(1 - event.clientX / innerWidth); });
  edge.addEventListener("keydown", event => {
    const by = {ArrowLeft: BY, ArrowRight: -BY}[event.key];
    if (!by) return;
    event.preventDefault();
    event.stopPropagation();
    setWidth(width() + by);
  });
  edge.addEventListener("dblclick", () => {
    document.body.style.removeProperty("--beside");
    keep("width", null);
    draw();
  });
}

// ---- more

const DOES = {
  ask: () => { if (now.asks && player.answers.size) showResult(); goTo({asks: !now.asks, mode: "", step: now.asks ? now.step : 0}); },
  explorer: () => openExplorer(),
  trace: () => openTrace(),
  log: () => openLog(),
  words: () => openWords(),
  share: () => share(),
  print: () => print(),
  theme: () => takeTheme(themeNow() === "dark" ? "light" : "dark"),
  far: () => { document.documentElement.classList.toggle("far"); draw(); },
  beside: () => showBeside(!isBeside()),
  full: () => fullScreen(),
  help: () => $("help-dialog").showModal(),
};

// The run that is told, as a log of an engine, in an address of its own.
async function openLog() {
  const schedule = wasm && !model?.isLog ? await eventsOf() : null;
  if (schedule === null) return;
  const got = await hek(["run", "--history", NAME], {[NAME]: schedule});
  if (got.status === 0) visit(`#s=${await pack(got.out)}`);
}

function showMenu(isShown) {
  const menu = $("menu"), button = $("more"), box = button.getBoundingClientRect();
  menu.hidden = !isShown;
  button.setAttribute("aria-expanded", isShown);
  menu.style.top = `${box.bottom + 4}px`;
  menu.style.right = `${Math.max(4, innerWidth - box.right)}px`;
  if (isShown) menu.querySelector("button").focus();
}

function menuKey(event) {
  const items = [...$("menu").querySelectorAll("button")], at = items.indexOf(document.activeElement), by = {ArrowDown: 1, ArrowUp: -1}[event.key];
  if (event.key === "Escape" || event.key === "Tab") { showMenu(false); $("more").focus(); } else if (by) items[(at + by + items.length) % items.length].focus();
  else if (event.key === "Home" || event.key === "End") items.at(event.key === "Home" ? 0 : -1).focus();
  else return;
  event.preventDefault();
  event.stopPropagation();
}

function showResult() {
  $("result-text").value = player.result() + `\n${location.href.split("?")[0]}`;
  $("result-said").textContent = "";
  $("result-dialog").showModal();
}

// ---- keys

const OWN_KEYS = {"?": "ask", d: "theme", l: "far", t: "beside", s: "full", h: "help"};

function goBy(by) {
  const at = SCHEDULES.findIndex(it => it.name === opened), other = at < 0 ? null : SCHEDULES[at + by];
  if (other) visit("#" + other.name);
}

// A key goes to what is open, from wherever the focus is but in a field.
function pageKey(event) {
  if (event.defaultPrevented || event.ctrlKey || event.altKey || event.metaKey || document.querySelector("dialog[open]")) return;
  if (event.target.closest?.("input, textarea, select, [role=menu]")) return;
  const {key} = event;
  if (!$("blank").hidden) unblank();
  else if (key === "b" || key === ".") $("blank").hidden = false;
  else if (key === "n" || key === "N") goBy(key === "n" ? 1 : -1);
  else if (panel && (key === "Escape" || (key === "m" && panel === "machine"))) closePanel();
  else if (Object.hasOwn(OWN_KEYS, key)) DOES[OWN_KEYS[key]]();
  else if (panel) { if (event.isTold || !frameKey(event)) return; } else if (!player.key(event)) return;
  event.preventDefault();
}

// In the machine and the explorer the keys are those of their page.
function frameKey({key, shiftKey, target}) {
  const presses = /^( |Enter)$/.test(key) && target.closest("button, a, summary"), isPage = /^([0-9fpwtgi ]|Arrow(Left|Right|Up|Down)|Page(Up|Down)|Home|End|Backspace|Enter)$/.test(key);
  if (!frame || $("frames").hidden || presses || !isPage) return false;
  send(frame, {key, isShift: shiftKey});
  return true;
}

function unblank() {
  $("blank").hidden = true;
  if (frame) send(frame, {key: "Escape"});
}

// ---- on paper: the picture at its step with the run in words, or where moves are asked for a sheet with questions

function printed() {
  const {story} = player, asks = now.asks;
  if (!story) return;
  const head = `<h1>${Story.text.esc(title())}${model.isLog ? "" : `, ${Story.text.esc(now.level)}`}</h1><p>${Story.text.esc([model.about, model.question].filter(Boolean).join(" "))}</p>`;
  const picture = Story.figure.figure(story, {step: asks ? 0 : now.step || story.columns.length + 1, width: 960, theme: "light"});
  const program = `<pre>${Story.text.esc(text.value.trimEnd())}</pre>`;
  $("printed").innerHTML = asks ? `${head}${program}${Story.ask.worksheet(story)}` : `${head}${picture}${program}<div class="told">${$("st-prose").innerHTML}</div>`;
}

// ---- the start

function listenToText() {
  text.addEventListener("input", typed);
  text.addEventListener("keydown", editorKey);
  text.addEventListener("scroll", () => { scrolled(); noOffers(); });
  text.addEventListener("blur", noOffers);
  text.addEventListener("mousemove", hover);
  text.addEventListener("mouseleave", () => { $("tip").hidden = true; });
  text.addEventListener("pointerdown", noOffers);
  document.addEventListener("selectionchange", caretMoved);
  takesFiles(text, writeAll);
  $("gutter").addEventListener("click", event => goToLine(lineAt(event.clientY)));
}

function listenToControls() {
  $("examples").addEventListener("change", () => { visit("#" + $("examples").value); $("examples").blur(); });
  $("reset").addEventListener("click", reset);
  $("more").addEventListener("click", () => showMenu($("menu").hidden));
  $("menu").addEventListener("keydown", menuKey);
  $("menu").addEventListener("click", event => {
    const item = event.target.closest("[data-do]");
    if (item) { showMenu(false); DOES[item.dataset.do](); }
  });
  document.addEventListener("pointerdown", event => { if (!event.target.closest("#menu, #more")) showMenu(false); });
  $("st-back").addEventListener("click", () => history.back());
  for (const id of ["st-prev", "st-next", "st-end"]) $(id).addEventListener("click", event => panelStep(event, id), true);
  $("share-copy").addEventListener("click", () => copyFrom("share-address", "share-said"));
  $("share-asks").addEventListener("change", share);
  $("share-picture").addEventListener("click", savePicture);
  $("share-text").addEventListener("click", saveText);
  $("result-copy").addEventListener("click", () => copyFrom("result-text", "result-said"));
  $("wait-end").addEventListener("click", () => stop("ended, as you asked"));
  $("skip").addEventListener("click", () => $("st-stage").focus());
  $("blank").addEventListener("click", unblank);
}

// In the machine the buttons of the story go by its steps.
function panelStep(event, id) {
  if (!panel) return;
  event.stopImmediatePropagation();
  if (frame) send(frame, {key: {"st-prev": "ArrowLeft", "st-next": "ArrowRight", "st-end": "End"}[id]});
}

function listen() {
  listenToText();
  listenToControls();
  $("st-prose").addEventListener("click", event => {
    const step = event.target.closest("button.step"), link = event.target.closest("a[href^='#']");
    if (step) openMachineAt(Number(step.dataset.step));
    if (!link) return;
    event.preventDefault();
    visit(link.getAttribute("href"));
  });
  // After a click the keys go to the story again, as those of a presenter's remote should.
  document.addEventListener("click", event => {
    if (event.detail > 0 && event.target.closest("button, [role=button]") && !event.target.closest("dialog, #menu, #more, #problems, #skip")) document.activeElement?.blur();
  });
  document.addEventListener("keydown", pageKey);
  addEventListener("resize", () => draw());
  // Where the page begins to scroll, its pictures have less room, and are drawn anew.
  let room = 0;
  new ResizeObserver(([{contentRect: {width}}]) => {
    if (width > 0 && width < room) draw();
    room = width || room;
  }).observe($("st-cards"));
  addEventListener("beforeprint", printed);
  addEventListener("popstate", goToAddress);
  addEventListener("hashchange", () => { if (location.hash !== address()) goToAddress(); });
  for (const kind of ["error", "unhandledrejection"]) addEventListener(kind, event => say(`This page has a fault: ${event.message ?? event.reason}`));
}

// The machine at one of its steps, of which the prose speaks.
function openMachineAt(step) {
  now.step = Story.story.movesAt(player.story, step);
  openMachine(step);
}

async function start() {
  for (const group of new Set(SCHEDULES.map(it => it.group))) {
    const options = document.createElement("optgroup");
    options.label = group;
    options.append(...SCHEDULES.filter(it => it.group === group).map(it => new Option(it.title, it.name)));
    $("examples").append(options);
  }
  $("examples").append(new Option("Your schedule", "own"));
  player = new Story.player.Player({go: goTo});
  startWords();
  if (kept("theme")) takeTheme(kept("theme"));
  await unpackPlays().catch(() => { stored = {}; });
  listen();
  startEdge();
  const loading = isAble() ? load() : Promise.reject(new Error("This browser has no 64-bit WebAssembly: it plays what is stored here. To run texts of your own take Chrome or Edge from 133 on, or Firefox from 134 on."));
  const isStored = !/^#(s=|own)|\/(explorer|trace)\b/.test(location.hash) && !Object.keys(localStorage).some(key => key.startsWith("hek:text:"));
  if (!isStored) await loading.catch(() => {});
  await goToAddress();
  await loading.then(() => { if (!model || isOld || others.some(it => it !== notice)) return tell(); return undefined; }, fault => { say(fault.message ?? `The machine can’t be loaded: ${fault}`); });
}

start();
