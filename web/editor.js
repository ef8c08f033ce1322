// ---- the schedule's text, with the line of the step, and faults at their places

const text = $("text");
const LINE = 20;
const isHead = line => /^\s*(buckets|row|txn)\b/.test(line);
const isComment = line => /^\s*#/.test(line);
// What is to hold at the end of a program; a transaction may be called `always`.
const isInvariant = line => /^\s*always\s+(?!(begin|read|scan|insert|update|delete|finish|precommit|release|commit|stamp|end|fail)\b)/.test(line);
const isStep = line => /^\s*[^\s#]/.test(line) && !isHead(line) && !isInvariant(line);
// A step with a value or a condition that is computed.
const isComputed = line => isStep(line) && /^\s*\S+\s+\S+.*?([@+*=<>!-]|\sif\s)/.test(line.replace(/#.*/, ""));
// A program is played from beginning to end: it is a schedule once its values are known.
const isProgram = schedule => schedule.split("\n").some(line => isInvariant(line) || isComputed(line));
const lines = () => text.value.split("\n");
const escaped = said => said.replace(/[&<>]/g, char => ({"&": "&amp;", "<": "&lt;", ">": "&gt;"})[char]);

// `faults`: {at, from, length, said}: a line from 0, a place in it from 0, and what is said of it. `others`: what has no place. `here`: the line of
// the move that is shown, or null; `isBroken`: whether it is an invariant that is broken.
let faults = [], others = [], here = null, isBroken = false;

// The numbers are one text, written anew when there are more or fewer; those that are marked lie over it.
let counted = 0;

function drawLines() {
  const all = lines(), shown = shownFaults().filter(it => it.at < all.length);
  if (counted !== all.length) {
    counted = all.length;
    $("numbers").textContent = all.map((_, at) => at + 1).join("\n");
  }
  const numbers = new Map(here === null ? [] : [[here, "here"]]);
  for (const {at} of shown) numbers.set(at, "bad");
  for (const it of $("numbers").querySelectorAll("b")) it.remove();
  $("numbers").append(...[...numbers].map(([at, kind]) => {
    const it = document.createElement("b");
    it.className = kind;
    it.style.top = `${at * LINE}px`;
    it.textContent = at + 1;
    return it;
  }));
  const marked = shown.map(({at, from, length}) => {
    const line = all[at], word = line.slice(from, from + length) || " ";
    return `<div style="top:${at * LINE}px">${escaped(line.slice(0, from))}<u>${escaped(word)}</u></div>`;
  });
  const step = here === null ? "" : `<div class="${isBroken ? "broken" : "here"}" style="top:${here * LINE}px"></div>`;
  $("marks").innerHTML = step + marked.join("");
  text.setAttribute("aria-invalid", shown.length > 0);
  scrolled();
}

// The line whose number is at a height of the window.
const lineAt = y => Math.floor((y - $("numbers").getBoundingClientRect().top) / LINE);

function scrolled() {
  $("numbers").style.transform = `translateY(${-text.scrollTop}px)`;
  $("marks").style.transform = `translate(${-text.scrollLeft}px, ${-text.scrollTop}px)`;
  $("tip").hidden = true;
}

// Marks a line, from 0, and brings it into sight unless the text is being typed; none if there is no such line.
function markAt(at, broken) {
  here = at >= 0 && at < lines().length ? at : null;
  isBroken = broken;
  drawLines();
  if (document.activeElement === text) return;
  const top = (here ?? 0) * LINE;
  if (here === null ? now.step === 0 : top < text.scrollTop || top > text.scrollTop + text.clientHeight - 2 * LINE) text.scrollTop = Math.max(0, top - text.clientHeight / 2);
}

// Browsers insert a text line by line, each with an event of its own: of so many lines the undo is given up for.
const MOST_LINES_UNDONE = 400;
let isWriting = false;

// Puts `said` in place of the text from one place to another, in a way that the browser can undo; only what differs is written.
function write(said, from = 0, to = text.value.length) {
  const old = text.value.slice(from, to), end = from + said.length;
  let [same, tail] = [0, 0];
  while (same < Math.min(old.length, said.length) && old[same] === said[same]) same++;
  while (tail < Math.min(old.length, said.length) - same && old.at(-1 - tail) === said.at(-1 - tail)) tail++;
  const part = said.slice(same, said.length - tail);
  showBeside(true);
  text.focus();
  if (old !== said) replace(part, from + same, to - tail);
  text.setSelectionRange(end, end);
  if (old !== said) typed();
}

function replace(part, from, to) {
  text.setSelectionRange(from, to);
  isWriting = true;
  const isDone = part.split("\n").length <= MOST_LINES_UNDONE && document.execCommand(part ? "insertText" : "delete", false, part);
  if (!isDone) text.setRangeText(part, from, to, "end");
  isWriting = false;
}

// Puts a whole text in place of the one that is there; the caret is at the start.
function writeAll(said) {
  if (said === text.value) return;
  write(said);
  text.setSelectionRange(0, 0);
  text.scrollTop = 0;
}

function toPlace({at, from = 0, length}) {
  const start = lines().slice(0, at).reduce((sum, line) => sum + line.length + 1, 0);
  showBeside(true);
  text.focus();
  text.setSelectionRange(start + from, start + from + (length ?? lines()[at].length));
  text.scrollTop = Math.max(0, at - 5) * LINE;
}

// The line of the caret, from 0, and what stands before the caret in it.
function caret() {
  const before = text.value.slice(0, text.selectionStart).split("\n");
  return {at: before.length - 1, before: before.at(-1)};
}

// ---- faults

// The line that is being typed is no fault yet: until the caret leaves it, or nothing was typed for so long, in milliseconds.
let restTime = 1500, typedLine = null, rest = null;

const shownFaults = () => faults.filter(it => it.at !== typedLine);

function typesLine(at) {
  typedLine = at;
  clearTimeout(rest);
  if (at !== null) rest = setTimeout(leaveLine, restTime);
}

function leaveLine() {
  const isYoung = faults.some(it => it.at === typedLine);
  typesLine(null);
  if (isYoung) drawFaults();
}

// What hek says of a schedule: a place, and under it lines that begin with a bar. The line before all places is for scripts.
function readFaults(err, name) {
  const parts = err.split(/^(?=  \S+:\d+:\d+$)/m), found = [], more = [];
  for (const part of parts) {
    const place = part.match(/^  (\S+):(\d+):(\d+)\n/);
    if (!place || (place[1] !== name && place[1] !== LOG)) {
      more.push(part.trim());
      continue;
    }
    const [body, left] = part.slice(place[0].length).trimEnd().split(/^(?=and \d+ more$)/m);
    const said = body.replace(/^  \| ?/gm, "").trimEnd(), marks = said.match(/^ *(\^+)/m);
    if (left) more.push(left);
    found.push({at: place[2] - 1, from: place[3] - 1, length: marks ? marks[1].length : 1, said});
  }
  return {found, more: more.filter(it => it && !(found.length && /^hek: (history: )?line /.test(it)))};
}

function showFaults(err) {
  const {found, more} = readFaults(err, NAME);
  [faults, others] = [found, [notice, ...more].filter(Boolean)];
  drawFaults();
}

function problem(kind, said, act) {
  const item = document.createElement("button");
  item.className = kind;
  item.textContent = said;
  item.onclick = act;
  return item;
}

function drawFaults() {
  const found = shownFaults(), shown = found.map(fault => problem("fault", `line ${fault.at + 1}\n${fault.said}`, () => toPlace(fault)));
  for (const said of others) {
    const item = document.createElement("pre");
    item.textContent = said;
    shown.push(item);
  }
  $("problems").replaceChildren(...shown);
  drawLines();
  markFault();
}

// The fault in the caret's line is marked among those under the text.
function markFault() {
  const {at} = caret(), all = $("problems").querySelectorAll(".fault");
  let isFirst = true;
  shownFaults().forEach((fault, index) => {
    const isHere = document.activeElement === text && fault.at === at;
    all[index]?.classList.toggle("now", isHere);
    if (isHere && isFirst) $("problems").scrollTop = all[index].offsetTop - $("problems").offsetTop;
    if (isHere) isFirst = false;
  });
}

// The caret was moved.
function caretMoved() {
  if (typedLine !== null && caret().at !== typedLine) leaveLine();
  else markFault();
}

function nextFault(by) {
  typesLine(null);
  drawFaults();
  if (!faults.length) return;
  const {at} = caret(), after = by > 0 ? faults.find(it => it.at > at) : faults.findLast(it => it.at < at);
  toPlace(after ?? faults.at(by > 0 ? 0 : -1));
}

function hover(event) {
  const marks = [...$("marks").querySelectorAll("u")];
  const index = marks.findIndex(it => {
    const box = it.getBoundingClientRect();
    return event.clientX >= box.left && event.clientX <= box.right && event.clientY >= box.top && event.clientY <= box.bottom + 3;
  });
  const tip = $("tip");
  tip.hidden = index < 0;
  if (index < 0) return;
  tip.textContent = shownFaults()[index].said;
  const box = marks[index].getBoundingClientRect();
  tip.style.left = `${Math.max(4, Math.min(box.left, innerWidth - tip.offsetWidth - 8))}px`;
  tip.style.top = `${Math.max(4, box.bottom + 6 + tip.offsetHeight > innerHeight ? box.top - 6 - tip.offsetHeight : box.bottom + 6)}px`;
}

// ---- comments

// Makes comments of the lines of the selection, or lines of comments if all are.
function toggleComments() {
  const {value, selectionStart, selectionEnd} = text;
  const from = value.lastIndexOf("\n", selectionStart - 1) + 1;
  const last = selectionEnd > selectionStart && value[selectionEnd - 1] === "\n" ? selectionEnd - 1 : selectionEnd;
  const to = value.indexOf("\n", last) < 0 ? value.length : value.indexOf("\n", last);
  const some = value.slice(from, to).split("\n");
  const isAll = some.every(line => /^\s*(#|$)/.test(line));
  const made = some.map(line => isAll ? line.replace(/^(\s*)# ?/, "$1") : line.trim() ? `# ${line}` : line).join("\n");
  if (made === value.slice(from, to)) return;
  write(made, from, to);
  text.setSelectionRange(from, from + made.length);
}
