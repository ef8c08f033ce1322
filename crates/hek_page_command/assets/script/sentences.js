
/* ================================================================ what is said */

const nameOf = (id) => run.names.get(String(id)) ?? `transaction ${id}`;
const colourOf = (id) => `c${(Number(id) - 1) % 6}`;
const tag = (id) => `<b class="t ${colourOf(id)}">${esc(nameOf(id))}</b>`;
const tagName = (name) => (run.ids.has(name) ? tag(run.ids.get(name)) : esc(name));
const things = (count) => (count === "1" || count === 1 ? "1 thing" : `${count} things`);

/** How many transactions a commit depends on. */
const preparing = (count) => (count === "1" ? "1 transaction that is still preparing" : `${count} transactions that are still preparing`);

/** What a step fills into the sentence of its reply, by name, as HTML. */
function partsOf(step, position) {
  const { args, r } = step;
  const txn = step.name === null ? null : run.txn(run.ids.get(step.name), position);
  const parts = { me: step.name === null ? "" : tagName(step.name), things: things(r[1]), preparing: preparing(r[2]) };
  args.forEach((it, index) => { parts[`a${index}`] = esc(it); });
  r.forEach((it, index) => { parts[`r${index}`] = esc(it); if (/^\d+$/.test(it)) parts[`t${index}`] = tag(it); });
  parts.made = run.touched[position].filter((it) => it.startsWith("version ") && !run.get(it, position - 1)).map((it) => "v" + it.slice(8))[0] ?? "";
  parts.snap = txn?.level === "snapshot" ? `, as of its begin at time ${txn.begin}` : "";
  parts.end = txn?.end ?? "";
  parts.rows = r.slice(1).map(esc).join(", ") || "nothing";
  parts.cycle = [...r.slice(3), r[3] ?? ""].map((it) => tag(it)).join(" waits for ");
  return parts;
}

/** The step in plain English, as HTML: the sentence of its reply, by the program's table, with what the step fills in. */
function sentenceOf(step, position) {
  const parts = partsOf(step, position);
  return esc(step.sentence).replace(/\{(\w+)\}/g, (all, name) => parts[name] ?? all).replace(/\*([^*]+)\*/g, "<b>$1</b>");
}

/** The definition that decides the step's reply, and when that reply comes, by the program's table. */
function ruleOf(step) {
  const whose = /^aborted (?!again)/.test(step.rule) ? "It comes to a transaction that " : step.rule.startsWith("refused ") ? "The event " : "";
  return [step.definition, `${step.reply}: ${whose}${step.comes.replace(/`/g, "")}`];
}

/** A reason in the words of `hek run --why`, without its words in hexadecimal, the names as tags. */
function reasonOf(line) {
  const bare = line.trim().replace(/ \(([0-9A-F]{16})(, [0-9A-F]{16})?\)/g, "").replace(/^(version \d+ is .*?) at \d+:/, "$1:");
  return esc(bare)
    .replace(/\bversion (\d+)/g, "v$1")
    .replace(/(^|\bby |\bfor |\bif |\bon |, | and )([a-z][a-z0-9_]*)(?= |,|$)/g, (all, front, name) => (run.ids.has(name) ? front + tagName(name) : all))
    .replace(/ is seen/, " is <b>seen</b>").replace(/ is passed over/, " is <b>passed over</b>");
}

/** What the step changed: short, as chips. */
function changesOf(position) {
  const chips = [];
  const changed = (label, old, now) => chips.push(`<span class="chip">${label} ${old === null ? "" : `<s>${esc(old)}</s> `}<b>${esc(now)}</b></span>`);
  // What may be cut off comes last.
  const rank = (subject) => ["txn", "version", "bucket", "clock"].indexOf(subject.split(" ")[0]);
  for (const subject of [...run.touched[position]].sort((a, b) => rank(a) - rank(b))) {
    const [old, now] = [run.get(subject, position - 1), run.get(subject, position)];
    if (subject === "clock") changed("clock", old, now);
    else if (subject.startsWith("version")) {
      if (!old) changed(`new v${now.v}`, null, `key ${now.key} = ${now.value}`);
      else {
        if (old.begin !== now.begin) changed(`v${now.v} Begin`, saidOfBegin(old), saidOfBegin(now));
        if (old.end !== now.end) changed(`v${now.v} End`, saidOfEnd(old), saidOfEnd(now));
      }
    } else if (subject.startsWith("txn")) {
      const me = tag(now.id);
      if (old.state !== now.state) changed(me, null, now.state);
      if (old.end !== now.end) changed(`${me} end`, null, now.end);
      if (old.waits !== now.waits) changed(`${me} waits for`, old.waits, now.waits);
      if (old.commits !== now.commits) changed(`${me} depends on`, old.commits, now.commits);
      if (!old.finished && now.finished) changed(me, null, "no more waits");
      if (!old.doomed && now.doomed) changed(me, null, "must abort now");
      if (old.waiting.join() !== now.waiting.join()) changed(`${me} waiters`, null, now.waiting.map(nameOf).join(", ") || "none");
    } else changed(subject, null, now ? "locked by " + now.holders.map(nameOf).join(", ") : "free");
  }
  return chips;
}

const saidOfBegin = (it) => (it.maker ? `made by ${nameOf(it.maker)}` : it.made ? `time ${it.made}` : "infinity: never");
function saidOfEnd(it) {
  if (it.ended) return `time ${it.ended}`;
  if (!it.readers && !it.writer) return "infinity";
  const parts = [it.readers === 1 ? "1 reader" : it.readers ? `${it.readers} readers` : "no reader"];
  parts.push(it.writer ? `writer ${nameOf(it.writer)}` : "no writer");
  if (it.noMore) parts.push("no more reads");
  return parts.join(", ");
}

function showSay() {
  const shown = tellingStep();
  const step = here > 0 ? run.steps[shown - 1] : null;
  const covered = coveredStep();
  if (covered) return showQuestion(covered);
  $("say").className = step ? kindOf(step) : "";
  if (!step) {
    const about = (isSpoilerHidden() ? data.question : data.about) || "The rows are loaded, and nobody has begun.";
    $("said").innerHTML = `${askedSaid()}<p class="event"><span class="num">start</span> Before the first step</p><p class="plain${about.length > 150 ? " longer" : about.length > 105 ? " long" : ""}">${esc(about)}</p>`;
    $("because").innerHTML = opening();
    fitSay();
    return;
  }
  const reply = `<span class="reply">${esc(step.reply)}</span>`;
  const verdict = here === run.last && !isTree ? verdictText() : "";
  const onward = verdict && data.next ? `<a class="way onward" href="${esc(data.next[0])}">Next: ${esc(data.next[1])} \u203a</a>` : "";
  const folded = isFolded(shown) && shown === spanOf(shown).to;
  const sentence = folded ? foldedSentence(shown) : sentenceOf(step, shown);
  const isLong = sentence.replace(/<[^>]*>/g, "").length > 92;
  $("said").innerHTML = `${onward}${askedSaid()}<p class="event"><span class="num">${folded ? `${run.done + spanOf(shown).from}\u2013` : ""}${run.done + shown}</span> <code>${step.name ? tagName(step.name) + " " : ""}${esc(step.event)}</code> <span class="arrow">\u2192</span> ${reply}</p>
    <p class="plain${isLong ? " long" : ""}">${sentence}</p>${isTree ? eventsOfMove(shown) : ""}${noteOf(step)}${verdict}`;
  const why = linesOf(step.why).filter((it) => !/(begin|end) [0-9A-F]{16}/.test(it)).map((it) => `<li>${reasonOf(it)}</li>`);
  why.sort((a, b) => b.includes("<b>seen") - a.includes("<b>seen"));
  const chips = changesOf(here);
  const [most, some, hasRest] = thoseThatFit(why, chips);
  if (chips.length > some) chips.splice(some, chips.length, `<span class="soft">and ${chips.length - some} more</span>`);
  const rest = why.length > most && hasRest ? `<li class="soft">and ${why.length - most} more</li>` : "";
  const told = feedback();
  const rule = ruleOf(step);
  $("because").innerHTML = `${told}${why.length ? `<ul class="why" aria-label="Why">${why.slice(0, most).join("")}${rest}</ul>` : ""}
    <p class="chips">${chips.length ? chips.join(" ") : '<span class="soft">Nothing changed.</span>'} <button type="button" class="rule" data-rule="${step.op}" title="What the rule says">rule: ${esc(rule[0])}</button></p>`;
  fitSay();
}

/** Texts of so many characters have room in any case. */
const SURE_TO_FIT = 90;

/** Makes the words of a step smaller where they have no room, as with long numbers or names, in two steps. Short ones aren't measured, since
    that would have the browser lay out the page. */
function fitSay() {
  for (const id of ["said", "because"]) {
    const place = $(id);
    delete place.dataset.fit;
    if (isSmall() || place.textContent.length < SURE_TO_FIT) continue;
    for (const fit of ["1", "2"]) if (place.scrollHeight > place.clientHeight + 2) place.dataset.fit = fit;
  }
}

/** The comment above a step; while replies are guessed, and where a question stands there, the question and then the comment. */
const noteOf = (step) => (step.note && !isSpoilerHidden(step) ? `<p class="note">${esc(step.note)}</p>` : "");

/** Whether comments are hidden, since they say what is to be guessed: where outcomes are hidden, and at the start where replies are guessed. */
const isSpoilerHidden = (step = null) => isSecret || (isPredict && step === null);

/** How many of the reasons and of the changes have room beside the sentence; at least one of each. */
function thoseThatFit(why, chips) {
  if (isSmall() || !sizes.because) return [4, 8, true];
  const [W, H] = sizes.because;
  const u = rem() * (document.body.dataset.lanes <= 2 && !isTree && !isPresent() && H > 8.4 * rem() ? 1.12 : 1);
  const plain = (html) => html.replace(/<[^>]*>/g, "").replace(/&[a-z]+;/g, "x");
  const heights = why.map((it) => Math.ceil((widthOf("because " + plain(it), 1.05 * u) * 1.05 + 1) / W) * 1.36 * u);
  const rowsOf = (count) => {
    let [rows, row] = [1, 0];
    for (const chip of [...chips.slice(0, count), ...(count < chips.length ? ["and 9 more"] : []), "rule: Table.precommit_rule"]) {
      const wide = Math.min(widthOf(plain(chip), rem(), 600) + 1.3 * rem(), W);
      if (row + wide > W) { rows++; row = 0; }
      row += wide;
    }
    return rows * 1.8 * rem();
  };
  let some = chips.length;
  const room = H - 0.4 * rem();
  while (some > 1 && rowsOf(some) > room - (heights[0] ?? 0) - (why.length > 1 ? 1.3 * u : 0)) some--;
  let left = room - rowsOf(some);
  let most = 0;
  for (const height of heights) {
    left -= height;
    if (left < (most + 1 < why.length ? 1.3 * u : 0)) break;
    most++;
  }
  return [Math.max(most, 1), some, most > 0];
}

const isPresent = () => document.documentElement.classList.contains("present");

/** What the bars along a lane mean. */
const KEY = `<span class="key"><i class="ph active"></i>active <i class="ph finished"></i>finished <i class="ph preparing"></i>preparing <i class="ph committed"></i>committed <i class="ph aborted"></i>aborted <i class="ph waiting"></i>waits</span>`;

/** What the arrows of the lanes and of the waits mean. */
const KEY_ARROWS = [["free", "", "this step lets the other one go on"], ["abort", "7 3", "this step makes the other one abort"], ["depends", "2 4", "commits only if the other one does"], ["weak", "6 5", "among the waits: would wait, and has not asked yet"]];

function legend() {
  const line = ([kind, dash, said]) => `<tr><td><svg class="flow ${kind}" width="48" height="14" viewBox="0 0 48 14" aria-hidden="true"><line x1="2" x2="36" y1="7" y2="7"${dash ? ` stroke-dasharray="${dash}"` : ""}/><path d="M46 7l-11 -6v12z"/></svg><td>${said}`;
  const short = run.txnIds.filter((id) => shortOf(id) !== nameOf(id)).map((id) => `<b class="t ${colourOf(id)}">${esc(shortOf(id))}</b> ${esc(nameOf(id))}`);
  const merged = tree?.isMerged ? `<p>${JOINS} A move with this mark leads to a state to which another order leads too. The page goes on after that order.</p>` : "";
  return `<h2>Legend</h2><p>${KEY}</p><table>${KEY_ARROWS.map(line).join("")}</table><p>A bar of a version goes from its Begin to its End. Dashed: if its maker commits. Crossed out: never valid. Dashed over a bar: what goes if its writer commits.</p>${short.length ? `<p>${short.join(" \u00b7 ")}</p>` : ""}${merged}`;
}

function opening() {
  if (isTree) return `<p class="soft">Choose which moves first. ${data.outcomes.length} outcomes, ${total(tree.nodes[0].counts)} orders${statesSaid()}.</p>`;
  return `<p>${KEY}</p><p class="soft">\u2192 Space: on. \u2190: back. ?: guess. h: all keys.</p>`;
}

function verdictText() {
  const last = run.txnIds.map((id) => run.txn(id, run.last)).filter((it) => it.kind === "committed" || (it.kind === "terminated" && it.end && run.phases.get(it.id).some((p) => p.kind === "committed")));
  last.sort((a, b) => a.end - b.end);
  const order = last.map((it) => `${tag(it.id)} at ${it.end}`).join(", then ");
  const promised = data.fault ? `<b>no</b>, from step ${data.fault} on` : "<b>yes</b>";
  return `<p class="note verdict">Each level’s promise is kept: ${promised}. Serializable: ${togetherSaid(order)}.</p>`;
}

function kindOf(step) {
  const first = step.r[0];
  return { waiting: "waits", aborted: "aborts", victim: "aborts", failed: "aborts", refused: "refused", committed: "commits" }[first] ?? "done";
}
