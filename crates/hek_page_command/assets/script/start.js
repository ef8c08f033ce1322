/* ---- the start */

/** The address's place in words; each address has one. */
function placeIn(hash) {
  try { return decodeURIComponent(hash.slice(1)); } catch { return ""; }
}

/** Goes to a place of the machine or the explorer. What is none is the start. */
function fromHash(hash = placeIn(location.hash)) {
  document.documentElement.classList.remove("told");
  if (!isTree) { jump(Math.trunc(Number(hash) - run.done) || 0); return; }
  const [level, place = ""] = isLevels ? hash.split(":") : ["", hash];
  if (isLevels) {
    if (!LEVELS.includes(level)) { document.body.classList.add("levels"); levels.shown = null; show(); return; }
    takeLevel(LEVELS.indexOf(level));
  }
  const [moves, at] = place.split("@");
  const order = moves.split(".").filter(Boolean);
  tree.path = pathOf(tree, order);
  run = runOfPath();
  const other = askedOf(tree, tree.path, order);
  // A number of steps is one of the order in the address.
  jump(at === undefined || other !== null ? run.last : Math.trunc(Number(at)) || 0, other);
}

// ---- the story, if its plays are here

let storyPage = null;

function plantStory() {
  const objects = $("plays").textContent.trim().split("\n").filter(Boolean).map(Story.text.parse);
  if (!objects.length) return;
  storyPage = new Story.page.StoryPage(sheet, objects, { open: (step) => { fromHash(isTree ? placeSaid() : String(step)); resized(); } });
  $("st-title").textContent = $("title").textContent;
  document.querySelector('[data-do="story"]').hidden = false;
}

/** Goes where the address says: to the story, or to the machine and the explorer. */
function goToHash() {
  if (!storyPage?.read(location.hash, !isTree)) fromHash();
}

/** At the end of an order the explorer shows the verdict of its story, where nobody is to guess the outcome. */
function tellLeaf() {
  const order = askedTo(tree.path.length - 1), level = isLevels ? LEVELS[levels.shown] : null;
  if (!isSecret && storyPage?.has(order, level)) storyPage.open(order, level);
}

function resized() {
  measure();
  show();
}

if (isLevels) plantLevels();
if (isTree) { tree = isLevels ? levels.trees[0] : treeOf(data); run = runOfPath(); } else {
  const lines = linesOf(data.trace).map((it) => it.replace(/^\d+ /, ""));
  run = new Run(data, data.steps.map((it, index) => ({ ...it, line: lines[index] })), data.done);
}
$("title").textContent = (data.lesson ? `${data.lesson}. ` : "") + data.title;
plantStory();
$("about").textContent = /^[^.:]*[.:]?/.exec(data.about ?? "")[0].replace(/:$/, ".");
for (const [way, ids] of [["previous", ["previous", "st-previous"]], ["next", ["next", "st-after"]]]) {
  // A link goes to another page, and runs nothing.
  if (!data[way] || /^\s*(?!https?:)[a-z][a-z0-9+.-]*:/i.test(data[way][0])) continue;
  const [file, title] = data[way];
  for (const link of ids.map($)) {
    link.hidden = false;
    link.href = file;
    link.title = `${way}: ${title}`;
    link.innerHTML = way === "next" ? `<span class="hidden">${esc(title)}</span> \u203a` : `\u2039 <span class="hidden">${esc(title)}</span>`;
  }
}
if (isLevels) document.querySelector('[data-do="levels"]').hidden = false;
if (isTree) {
  document.body.classList.add("tree");
  document.querySelector('[data-do="secret"]').hidden = false;
  for (const name of ["predict", "future"]) document.querySelector(`[data-do="${name}"]`).hidden = true;
}
measure();
goToHash();
measure();
show();
for (const id of [...Object.keys(DRAWN), "because"]) watcher.observe($(id));
let pending = 0;
addEventListener("resize", () => { cancelAnimationFrame(pending); pending = requestAnimationFrame(resized); });
