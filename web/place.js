// ---- the schedule that is open, and the address: #NAME/LEVEL/ORDER@MOVE?ask, or #s=TEXT/.. with the text in it

const DATA = JSON.parse($("data").textContent);
const SCHEDULES = DATA.schedules;
const OWN = `# Each empties its account if both together hold 200.
buckets 2
row 10 100
row 11 100
txn a serializable
txn b serializable
a read 10
a read 11
a update 10 0 if @10+@11 >= 200
b read 10
b read 11
b update 11 0 if @10+@11 >= 200
always @10+@11 >= 100
`;
const OWN_PROSE = `<p>Write rows and transactions first, then what each transaction reads and writes. Begins, ends and waits come by themselves, and the story follows as you type.</p>
  <p>A value may use what was read, as in <code>a update 10 @10+5</code>, a line may have a condition, as in <code>b fail if @10 = 0</code>, and <code>always @10 &gt; 0</code> says what is to hold.</p>
  <p>The bars below the story count what comes of all orders at each level; each plays one, and your text stays as it is.</p>`;
// The schedule's name: one that the page has, "own", or "shared" for that of an address.
let opened = "own", shared = "", packed = "";
// An address of more letters than this has no text in it.
const MOST_PACKED = 20000;
// A text that an address has is at most so long when it is unpacked, in bytes.
const MOST_UNPACKED = 1 << 20;

const titleOf = name => SCHEDULES.find(it => it.name === name)?.title ?? (name === "own" ? "Your schedule" : "A shared schedule");
const title = () => titleOf(opened);
const original = () => SCHEDULES.find(it => it.name === opened)?.text ?? (opened === "own" ? OWN : shared);

// What the browser keeps for the next visit; where it may keep nothing, nothing is kept.
function keep(key, said) {
  try {
    if (said === null) localStorage.removeItem("hek:" + key);
    else localStorage.setItem("hek:" + key, said);
  } catch {}
}

function kept(key) {
  try {
    return localStorage.getItem("hek:" + key);
  } catch {
    return null;
  }
}

function openSchedule(name) {
  opened = name;
  packed = "";
  if (![...$("examples").options].some(it => it.value === name)) $("examples").prepend(new Option(titleOf(name), name));
  $("examples").value = name;
  text.value = (name === "shared" ? null : kept("text:" + name)) ?? original();
  text.scrollTop = text.scrollLeft = 0;
  text.setSelectionRange(0, 0);
  [faults, others, here] = [[], [], null];
  typesLine(null);
  noOffers();
  drawFaults();
  if (name === "shared" || name === "own") packLater();
}

function changedNote() {
  $("changed").hidden = text.value === original();
}

// ---- the address

const packing = (said, through) => new Blob([said]).stream().pipeThrough(through);

async function pack(said) {
  const bytes = new Uint8Array(await new Response(packing(said, new CompressionStream("deflate-raw"))).arrayBuffer());
  let chars = "";
  for (const byte of bytes) chars += String.fromCharCode(byte);
  return btoa(chars).replace(/\+/g, "-").replace(/\//g, "_").replace(/=+$/, "");
}

async function unpack(said) {
  const bytes = Uint8Array.from(atob(said.replace(/-/g, "+").replace(/_/g, "/")), char => char.charCodeAt(0));
  const parts = [], reader = packing(bytes, new DecompressionStream("deflate-raw")).getReader();
  let length = 0;
  for (;;) {
    const {done, value} = await reader.read();
    if (done) return new Blob(parts).text();
    length += value.length;
    if (length > MOST_UNPACKED) throw new TooLong();
    parts.push(value);
  }
}

function address() {
  const front = packed ? `s=${packed}` : opened;
  if (panel === "explorer" || panel === "trace") return `#${front}/${panel}${panel === "explorer" && framePlace ? `@${framePlace}` : ""}`;
  const isOwn = !model || (model.isOwnOrder && now.level === model.opens.level), level = isOwn ? "" : `/${now.level === WRITTEN ? "written" : now.level}`;
  const order = !model || model.isOwnOrder ? "" : `/${model.order.join(".")}`;
  return `#${front}${level}${order}${now.step ? `@${now.step}` : ""}${now.asks ? "?ask" : ""}`;
}

// What an address asks for. Each text is an address: what it doesn't say is null.
function readAddress(hash) {
  const [front, asked] = hash.slice(1).split("?"), [words, ...places] = front.split("@"), [name, second, third] = words.split("/"), at = places.join("@");
  const isPanel = /^(explorer|trace|words|orders|history)$/.test(second ?? ""), level = second === "written" ? WRITTEN : LEVELS.includes(second) ? second : null;
  return {name, panel: isPanel ? second : null, level, order: level && third ? third.split(".") : null, step: /^\d{1,6}$/.test(at) ? Number(at) : 0, at, asks: asked === "ask"};
}

// The address follows the step without a new entry of the browser's history. Browsers limit how often it may change.
let addressTimer = null;
function tellAddress() {
  clearTimeout(addressTimer);
  addressTimer = setTimeout(writeAddress, 200);
}

function writeAddress() {
  clearTimeout(addressTimer);
  document.title = `${title()} · Hek`;
  if (location.hash !== address()) try { history.replaceState(history.state, "", address()); } catch {}
}

// Makes an entry of the browser's history for the place that is left.
function enter() {
  writeAddress();
  try { history.pushState({depth: (history.state?.depth ?? 0) + 1}, "", address()); } catch {}
}

// A schedule that the page has not is in its address.
async function packLater() {
  const said = text.value, made = await pack(said);
  if (said !== text.value || (opened !== "own" && opened !== "shared")) return;
  packed = made.length <= MOST_PACKED ? made : "";
  tellAddress();
}

// Goes to another schedule, with an entry for "back".
function visit(hash) {
  if (hash === location.hash) return;
  writeAddress();
  try { history.pushState({depth: (history.state?.depth ?? 0) + 1}, "", hash); } catch { location.hash = hash; }
  goToAddress();
}

// What is to be said of the address, until the text changes.
let notice = "";

async function goToAddress() {
  clearTimeout(addressTimer);
  const asked = readAddress(location.hash), {name} = asked;
  let said = "";
  if (panel) closePanel();
  if (name.startsWith("s=")) said = await openPacked(name.slice(2));
  else if (name === "own" || SCHEDULES.some(it => it.name === name)) { if (name !== opened || !model) openSchedule(name); }
  else {
    openSchedule(SCHEDULES[0].name);
    if (name) said = `There is no schedule called “${name.slice(0, 40)}” here. This is the first one.`;
  }
  now = {level: asked.level ?? SCHEDULES.find(it => it.name === opened)?.opens?.level ?? null, step: asked.step, mode: "", asks: asked.asks};
  wantedOrder = asked.order;
  notice = said;
  await tell();
  if (asked.panel === "explorer") await openExplorer(asked.at);
  else if (asked.panel === "trace") await openTrace();
  else if (asked.panel === "words") openWords();
}

class TooLong extends Error {}

// Opens the text of an address; answers what is to be said of it.
async function openPacked(said) {
  try {
    shared = await unpack(said);
    openSchedule("shared");
    return "";
  } catch (fault) {
    openSchedule(SCHEDULES[0].name);
    const why = fault instanceof TooLong ? "it is longer than 1 MB" : "the address was cut, or changed on its way";
    return `The schedule of this address can’t be read: ${why}. This is the first lesson instead.`;
  }
}

// ---- share and save

async function share() {
  const made = await pack(text.value), page = location.href.split("#")[0], isKnown = SCHEDULES.some(it => it.name === opened) && text.value === original();
  const end = address().replace(/^#[^/@?]*/, ""), front = isKnown ? opened : `s=${made}`;
  const asks = $("share-asks").checked ? "?ask" : "", hash = `#${front}${end.replace(/\?ask$/, "")}${asks}`;
  $("share-address").value = page + hash;
  $("share-frame").value = `<iframe src="${(page + hash).replace(/&/g, "&amp;").replace(/"/g, "&quot;")}" width="960" height="640" style="border: 0" title="${title().replace(/"/g, "&quot;")}"></iframe>`;
  $("share-note").textContent = location.protocol === "file:"
    ? "This page is a file on this machine, and the address opens it here. Others need the file too; what comes after # is the story."
    : "Whoever opens it sees this story at this move. A text of your own is in the address, and on no server.";
  $("share-said").textContent = "";
  if (!$("share-dialog").open) $("share-dialog").showModal();
  $("share-address").select();
  $("share-address").scrollLeft = 0;
}

// Copies what a field has; says so in another element.
async function copyFrom(field, said) {
  $(field).select();
  let isCopied = true;
  try {
    await navigator.clipboard.writeText($(field).value);
  } catch {
    isCopied = document.execCommand("copy");
  }
  $(said).textContent = isCopied ? "Copied" : "Press Ctrl-C to copy it";
}

function saveAs(name, kind, said) {
  const link = document.createElement("a"), url = URL.createObjectURL(new Blob([said], {type: kind}));
  link.href = url;
  link.download = name;
  link.click();
  setTimeout(() => URL.revokeObjectURL(url), 1000);
}

const fileName = () => opened === "own" || opened === "shared" ? "schedule" : opened;
const saveText = () => saveAs(`${fileName()}.${model?.isLog ? "jsonl" : "hek"}`, "text/plain", text.value);
// The story at its step as a picture.
const pictureOf = () => Story.figure.figure(player.story, {step: now.step, theme: themeNow(), title: `${title()}${now.level && !model.isLog ? `, ${now.level}` : ""}`});
const savePicture = () => saveAs(`${fileName()}-${now.step}.svg`, "image/svg+xml", pictureOf());
