// ---- the words that may stand at the caret, in a list

const EVENTS = {__proto__: null, begin: "", read: "KEY", scan: "BUCKET", insert: "KEY VALUE", update: "KEY VALUE", delete: "KEY", finish: "", precommit: "",
  release: "", commit: "", stamp: "", end: "", fail: ""};
const HEADS = {__proto__: null, buckets: "NUMBER", row: "KEY VALUE", txn: "NAME LEVEL", detect: "", always: "CONDITION"};
const LEVELS = ["serializable", "repeatable", "snapshot"];
let offered = [], chosen = 0;

const namesIn = () => [...text.value.matchAll(/^\s*txn\s+(\S+)/gm)].map(it => it[1]);
const keysIn = () => [...new Set([...text.value.matchAll(/^\s*(?:row|\S+\s+(?:read|insert|update|delete))\s+(\d+)/gm)].map(it => it[1]))];

const bucketsIn = () => Array.from({length: Math.min(64, text.value.match(/^\s*buckets\s+(\d+)/m)?.[1] ?? 0)}, (_, at) => String(at));

// What may come after the words before the caret: pairs of a word and what follows it.
function wordsAfter(words) {
  const [first, second] = words;
  if (words.length === 0) return [...Object.entries(HEADS), ...namesIn().map(name => [name, "transaction"])];
  if (first === "txn") return words.length === 2 ? LEVELS.map(it => [it, ""]) : [];
  if (first in HEADS) return [];
  if (words.length === 1) return namesIn().includes(first) ? Object.entries(EVENTS) : [];
  if (words.length === 3 && EVENTS[second] === "KEY VALUE") return keysIn().map(key => [`@${key}`, "what was found there"]);
  if (second === "scan" && words.length === 2) return bucketsIn().map(bucket => [bucket, "bucket"]);
  return words.length === 2 && EVENTS[second]?.startsWith("KEY") ? keysIn().map(key => [key, "key"]) : [];
}

// Shows the list if there is something to offer; while typing, only for a word that is begun and not whole.
function offer(isAsked) {
  const {before} = caret(), begun = before.match(/\S*$/)[0];
  const words = before.slice(0, before.length - begun.length).trim().split(/\s+/).filter(Boolean);
  const after = text.value.slice(text.selectionStart).match(/^[^\n]*/)[0];
  const isOff = isComment(before) || text.selectionStart !== text.selectionEnd || /^\S/.test(after);
  const all = isOff ? [] : wordsAfter(words).filter(([word]) => word.startsWith(begun));
  const isWhole = all.some(([word]) => word === begun);
  offered = !isAsked && (begun === "" || isWhole || /^\d/.test(begun)) ? [] : all.map(([word, rest]) => ({word, rest, begun}));
  chosen = 0;
  drawOffers();
}

function drawOffers() {
  const list = $("offers");
  list.hidden = offered.length === 0;
  list.replaceChildren(...offered.map(({word, rest}, index) => {
    const item = document.createElement("li");
    item.id = `offer-${index}`;
    item.role = "option";
    item.setAttribute("aria-selected", index === chosen);
    item.textContent = word;
    const more = document.createElement("span");
    more.textContent = rest;
    item.append(" ", more);
    item.onmousedown = event => { event.preventDefault(); take(index); };
    return item;
  }));
  if (list.hidden) {
    text.removeAttribute("aria-activedescendant");
    return;
  }
  text.setAttribute("aria-activedescendant", `offer-${chosen}`);
  list.children[chosen].scrollIntoView({block: "nearest"});
  const {at, before} = caret(), ruler = document.createElement("div");
  ruler.style.top = `${at * LINE}px`;
  ruler.textContent = before.slice(0, before.length - offered[0].begun.length) + "\u200b";
  $("marks").append(ruler);
  const box = ruler.getBoundingClientRect();
  ruler.remove();
  list.style.left = `${Math.max(4, Math.min(box.right, innerWidth - list.offsetWidth - 8))}px`;
  list.style.top = `${box.bottom + list.offsetHeight + 4 > innerHeight ? box.top - list.offsetHeight - 2 : box.bottom + 2}px`;
}

function noOffers() {
  offered = [];
  drawOffers();
}

// Whether a line takes no more words.
function isWholeLine(line) {
  const words = line.trim().split(/\s+/), wanted = HEADS[words[0]] ?? EVENTS[words[1]];
  if (wanted === undefined || !(words[0] in HEADS || words.length > 1)) return false;
  return words.length - (words[0] in HEADS ? 1 : 2) >= wanted.split(" ").filter(Boolean).length;
}

// Puts the word in; after Enter, where its line is whole then, the next line begins.
function take(index, isEnter = false) {
  const {word, begun} = offered[index];
  const at = text.selectionStart;
  noOffers();
  const {before} = caret(), line = before.slice(0, before.length - begun.length) + word;
  write(isEnter && isWholeLine(line) ? `${word}\n` : word, at - begun.length, at);
  noOffers();
}

// Answers whether the list took the key.
function offersKey(event) {
  if (!offered.length || event.ctrlKey || event.altKey || event.metaKey) return false;
  if (event.key === "ArrowDown" || event.key === "ArrowUp") {
    chosen = (chosen + (event.key === "ArrowDown" ? 1 : -1) + offered.length) % offered.length;
    drawOffers();
  } else if (event.key === "Enter" || event.key === "Tab") take(chosen, event.key === "Enter");
  else if (event.key === "Escape") noOffers();
  else return false;
  return true;
}
