// The story on the page: what is shown of a model at a place, and what keys and clicks do there. Its elements have the ids of story.html.
import { BAR, markAt } from "./cards.mjs";
import { cards, compared, sentence, sentenceRoom, stage, told } from "./view.mjs";
import { questionAt, questionHtml, questions, result } from "./ask.mjs";
import { samePlace } from "./story.mjs";
import { esc, rich } from "./text.mjs";

const NARROW = "(max-width: 50rem)";
const FORWARD = { ArrowRight: 1, ArrowDown: 1, PageDown: 1, ArrowLeft: -1, ArrowUp: -1, PageUp: -1 };
// So long after a reader's own scrolling the words don't follow the step, in milliseconds.
const READING = 700;
// The least height of the cards, in the size of ordinary text: they give room to a picture that wants it.
const LEAST_CARDS = 10;

export class Player {
  /** `host` goes to another place: `go({level, order, step, mode}, isEntry)`, where an entry is one of the browser's history. */
  constructor(host) {
    this.host = host;
    this.model = this.place = null;
    this.reading = -Infinity;
    this.answers = new Map();
    this.isAsking = false;
    // Of what the cards were drawn.
    this.drawn = [];
    this.listen();
  }

  get story() { return this.model?.stories[this.place.level] ?? null; }
  get end() { return (this.story?.columns.length ?? 0) + 1; }

  // ---- what is shown

  /** Shows a model at a place: {level, step, mode, asks}. */
  show(model, place, { scrolls = true } = {}) {
    const isNew = model !== this.model || place.level !== this.place?.level;
    if (model.id !== this.model?.id || place.level !== this.place?.level || !place.asks) { this.answers.clear(); this.isAsking = false; }
    [this.model, this.place] = [model, place];
    const { story } = this;
    if (!story) return this.clear();
    this.unit = parseFloat(getComputedStyle(document.documentElement).fontSize);
    this.showSentence(story);
    this.showCards(story);
    this.showStage(story);
    this.showTold(story, isNew, scrolls);
    this.showState(story);
    return undefined;
  }

  clear() {
    for (const id of ["st-say", "st-grid", "st-cards", "st-prose"]) byId(id).replaceChildren();
    byId("st-position").textContent = "";
  }

  showSentence(story) {
    const { model, place } = this, say = byId("st-say"), question = this.isAsking ? questionAt(story, place.step) : null;
    say.style.minHeight = `${sentenceRoom(model, place.mode)}rem`;
    put(say, question ? questionHtml(question, story.names) : this.feedback(story) + sentence(model, story, place));
  }

  /** Whether the guess of this step was right. */
  feedback(story) {
    const { asks, step } = this.place, answer = this.answers.get(step - 1);
    if (!asks || answer === undefined) return "";
    const isRight = answer === questionAt(story, step - 1).right;
    return `<p class="guess ${isRight ? "" : "not"}">${isRight ? "✓ Right." : `✗ The guess was: ${rich(answer, story.names)}.`}</p>`;
  }

  /** The cards, in so much height where the picture wants the rest. A step moves their marks alone. */
  showCards(story, high = null) {
    const { model, place, unit } = this, box = byId("st-cards"), isHidden = place.mode !== "" || place.asks || model.levels.length < 2, narrow = matchMedia(NARROW).matches;
    box.hidden = isHidden;
    if (isHidden) return put(box, "");
    box.style.setProperty("--cards", model.levels.length);
    if (high === null) box.style.removeProperty("--high"); else box.style.setProperty("--high", `${high}px`);
    const w = box.clientWidth, drawn = [model, place.level, w, unit, narrow, high];
    if (!box.put || drawn.some((it, index) => it !== this.drawn[index])) this.drawCards(box, cards(model, place, { w, u: unit, narrow }));
    this.drawn = drawn;
    for (const card of box.querySelectorAll("[data-card]")) {
      const its = model.stories[card.dataset.card], mark = card.querySelector(".mark"), x = markAt(its, samePlace(story, place.step, its));
      mark.setAttribute("visibility", x === null ? "hidden" : "visible");
      for (const name of ["x1", "x2"]) mark.setAttribute(name, x ?? 0);
    }
    return undefined;
  }

  drawCards(box, html) {
    for (const it of box.querySelectorAll(".more")) it.remove();
    const scrolled = [...box.querySelectorAll(".level")].map((it) => it.scrollTop);
    put(box, html);
    box.querySelectorAll(".level").forEach((card, index) => {
      card.scrollTop = scrolled[index] ?? 0;
      if (card.scrollHeight <= card.clientHeight + 2) return;
      // A line over the bars that have no room says how many they are.
      const all = card.querySelectorAll("[data-order]").length, bar = BAR * this.unit, top = card.scrollTop + card.lastElementChild.getBoundingClientRect().top - card.getBoundingClientRect().top - card.clientTop, whole = Math.floor((card.clientHeight - top - 1.2 * this.unit) / bar), h = card.clientHeight - top - whole * bar + 1;
      card.insertAdjacentHTML("beforeend", `<div class="more" style="height: ${h}px; margin-top: -${h}px">${all - whole} more ↓</div>`);
    });
  }

  showStage(story, isLast = false) {
    const { model, place, unit: u } = this, main = byId("st-main"), view = byId("st-stage"), narrow = matchMedia(NARROW).matches, style = getComputedStyle(main);
    // Less than a pixel over would make a bar to scroll by.
    const w = Math.floor(main.getBoundingClientRect().width - parseFloat(style.paddingLeft) - parseFloat(style.paddingRight)) - 1, below = byId("st-cards").hidden ? 0 : byId("st-cards").offsetHeight + 0.5 * u;
    const room = { w, h: narrow ? 0 : main.clientHeight - byId("st-say").offsetHeight - below - 1.2 * u, u };
    const { html, at } = place.mode === "compare" ? compared(model, story, place.step, room) : stage(story, place.step, room), hadFocus = view.contains(document.activeElement) && document.activeElement !== view;
    draw(byId("st-grid"), html);
    const left = byId("st-cards").offsetHeight - (view.scrollHeight - view.clientHeight) - 1;
    if (!narrow && !isLast && below > 0 && view.scrollHeight > view.clientHeight + 1 && left >= LEAST_CARDS * u) {
      this.showCards(story, left);
      this.showStage(story, true);
      return;
    }
    if (hadFocus) (view.querySelector('[tabindex="0"]') ?? view).focus({ preventScroll: true });
    const x = place.step ? at.left(place.step - 1) : 0, edge = view.clientWidth - at.gutter;
    if (x < view.scrollLeft || x + at.width(0) * 1.5 > view.scrollLeft + edge) view.scrollLeft = Math.max(0, x - edge * 0.6);
    view.classList.toggle("cut", view.scrollWidth > view.clientWidth + 1);
  }

  showTold(story, isNew, scrolls) {
    const { model, place } = this, prose = byId("st-prose"), { step, asks } = place;
    if (isNew || asks !== prose.asked || asks) put(prose, told(model, story, place, asks ? step : Infinity));
    prose.asked = asks;
    prose.classList.toggle("asks", asks === true);
    for (const it of prose.querySelectorAll(".tell")) it.classList.toggle("here", Number(it.dataset.step) === step);
    const here = prose.querySelector(".tell.here");
    if (scrolls && here && prose.scrollHeight > prose.clientHeight) prose.scrollTop = step === 0 ? 0 : here.offsetTop - prose.clientHeight * 0.3;
  }

  showState(story) {
    const { step, mode } = this.place, isEnd = step >= this.end;
    byId("st-position").textContent = isEnd ? "verdict" : `${step} / ${story.columns.length}`;
    byId("st-prev").disabled = step === 0;
    for (const id of ["st-next", "st-end"]) byId(id).disabled = isEnd;
    byId("st-compare").hidden = this.model.levels.length < 2;
    for (const name of ["compare", "machine"]) byId(`st-${name}`).setAttribute("aria-pressed", mode === name);
    const which = this.model.isOwnOrder === false ? `order ${this.model.order.join(" ")}` : "";
    byId("st-which").textContent = this.place.asks ? this.score(story) : which;
    byId("st-which").title = which;
    document.body.dataset.position = step;
  }

  score(story) {
    const asked = [...this.answers], right = asked.filter(([position, answer]) => questionAt(story, position).right === answer).length;
    return `${right} of ${asked.length} right, ${questions(story).length} questions`;
  }

  /** What was guessed, to hand in. */
  result() { return result(this.model.title, this.story, this.answers); }

  // ---- where it goes

  step(to, options) {
    const step = Math.max(0, Math.min(this.end, to));
    if (this.isAsking) return;
    if (this.place.asks && step === this.place.step + 1 && !this.answers.has(this.place.step) && questionAt(this.story, this.place.step)) {
      this.isAsking = true;
      this.show(this.model, this.place);
    } else if (step !== this.place.step) this.host.go({ step: this.place.asks ? Math.min(step, this.furthest()) : step }, false, options);
  }

  /** The last position that questions to come let be seen. */
  furthest() {
    const open = questions(this.story).find(({ position }) => !this.answers.has(position) && position >= this.place.step);
    return open ? Math.max(open.position, this.place.step) : this.end;
  }

  choose(index) {
    const { choices } = questionAt(this.story, this.place.step);
    if (!choices[index]) return;
    this.answers.set(this.place.step, choices[index]);
    this.isAsking = false;
    this.host.go({ step: this.place.step + 1 }, false);
  }

  toLevel(level) {
    const to = this.model.stories[level];
    if (to && level !== this.place.level) this.host.go({ level, step: samePlace(this.story, this.place.step, to) }, true);
  }

  flip(mode) {
    if (mode === "compare" && this.model.levels.length < 2) return;
    this.host.go({ mode: this.place.mode === mode ? "" : mode }, false);
  }

  // ---- what is pressed

  listen() {
    byId("st-prev").addEventListener("click", () => { this.isAsking = false; this.step(this.place.step - 1); });
    byId("st-next").addEventListener("click", () => this.step(this.place.step + 1));
    byId("st-end").addEventListener("click", () => this.step(this.end));
    byId("st-compare").addEventListener("click", () => this.flip("compare"));
    byId("st-machine").addEventListener("click", () => this.flip("machine"));
    for (const id of ["st-say", "st-grid", "st-cards", "st-prose"]) byId(id).addEventListener("click", (event) => this.pressed(event.target));
    const prose = byId("st-prose");
    for (const kind of ["wheel", "touchmove", "pointerdown"]) prose.addEventListener(kind, () => { this.reading = performance.now(); }, { passive: true });
    prose.addEventListener("scroll", () => this.scrolled(prose));
  }

  /** What a click or a key on an element of the story does; answers whether it does something. */
  pressed(target) {
    const choice = target.closest("[data-choice]"), bar = target.closest("[data-order]"), move = target.closest("[data-step]"), level = target.closest("[data-level]");
    if (choice) this.choose(Number(choice.dataset.choice));
    else if (bar) this.host.go({ order: bar.dataset.order.split(" "), level: bar.closest("[data-card]").dataset.card, step: 0 }, true);
    else if (move && !target.closest("a, button:not([data-step]), summary, details")) this.toMove(Number(move.dataset.step), level?.dataset.level);
    else if (level && level.tagName === "BUTTON") this.toLevel(level.dataset.level);
    else return false;
    return true;
  }

  toMove(step, level) {
    if (level && level !== this.place.level) this.host.go({ level, step }, true);
    else this.step(step);
  }

  /** A reader who scrolls the words takes the story along. */
  scrolled(prose) {
    if (performance.now() - this.reading > READING || this.place?.asks || prose.scrollHeight <= prose.clientHeight) return;
    this.reading = performance.now();
    const y = prose.scrollTop + prose.clientHeight * 0.3, all = [...prose.querySelectorAll(".tell")], at = all.filter((it) => it.offsetTop <= y + 8).length - 1, to = Number(all[Math.max(0, at)]?.dataset.step ?? 0);
    if (to !== this.place.step) this.host.go({ step: to }, false, { scrolls: false });
  }

  /** Takes a key; answers whether it means something to the story. */
  key(event) {
    const { key, target } = event, press = target.closest?.("[data-order], [data-step][role], button, a, summary");
    if (!this.story) return false;
    if ((key === "Enter" || key === " ") && press) {
      if (!press.matches("[data-order], g[data-step]")) return false;
      return this.pressed(press);
    }
    if (this.isAsking && /^[1-9]$/.test(key)) { this.choose(Number(key) - 1); return true; }
    if (this.isAsking && (key === "Escape" || FORWARD[key] < 0)) { this.isAsking = false; this.show(this.model, this.place); return true; }
    if (FORWARD[key]) this.step(this.place.step + FORWARD[key]);
    else if (key === " ") this.step(this.place.step + (event.shiftKey ? -1 : 1));
    else if (key === "Home") this.step(0);
    else if (key === "End") this.step(this.end);
    else if (/^[1-4]$/.test(key) && this.model.levels[key - 1]) this.toLevel(this.model.levels[key - 1]);
    else if (key === "c" || key === "m") this.flip(key === "c" ? "compare" : "machine");
    else return false;
    return true;
  }
}

const byId = (id) => document.getElementById(id);

/** Puts HTML into an element, unless it is there. */
function put(element, html) {
  if (element.put === html) return;
  element.innerHTML = html;
  element.put = html;
}

/** Puts a picture into an element. What is there already stays: a step of a long story draws only what differs. */
function draw(element, html) {
  if (element.put === html) return;
  const wanted = element.cloneNode(false);
  wanted.innerHTML = html;
  become(element, wanted);
  element.put = html;
}

/** Makes the children of an element those of another: equal ones stay, and of the others their attributes and children become what is wanted. */
function become(element, wanted) {
  let own = element.firstChild, its = wanted.firstChild;
  while (own && its) {
    const [after, next] = [own.nextSibling, its.nextSibling];
    if (own.isEqualNode(its)) [own, its] = [after, next];
    else if (next && own.isEqualNode(next)) { element.insertBefore(its, own); its = next; }
    else if (after?.isEqualNode(its)) { own.remove(); own = after; }
    else {
      if (own.nodeType === Node.ELEMENT_NODE && own.nodeName === its.nodeName) { dress(own, its); become(own, its); } else own.replaceWith(its);
      [own, its] = [after, next];
    }
  }
  while (own) { const after = own.nextSibling; own.remove(); own = after; }
  while (its) { const next = its.nextSibling; element.append(its); its = next; }
}

/** Gives an element the attributes of another, and no others. */
function dress(element, wanted) {
  for (const name of element.getAttributeNames()) if (!wanted.hasAttribute(name)) element.removeAttribute(name);
  for (const { name, value } of wanted.attributes) if (element.getAttribute(name) !== value) element.setAttribute(name, value);
}

/** The lines of a text, each an element, with the one of the step marked and the one of an invariant that is broken. */
export function showText(element, text, story, step) {
  const column = story?.columns[step - 1], isEnd = step > (story?.columns.length ?? 0), broken = isEnd ? story?.verdict.breaks : column?.breaks;
  if (element.text !== text) put(element, text.trimEnd().split("\n").map((line) => `<span>${esc(line) || " "}</span>`).join(""));
  element.text = text;
  for (const line of element.querySelectorAll(".here, .broken")) line.classList.remove("here", "broken");
  element.children[column?.line - 1]?.classList.add("here");
  element.children[broken - 1]?.classList.add("broken");
  const here = element.querySelector(".here, .broken") ?? (step === 0 ? element.firstElementChild : null);
  if (here) element.scrollTop = here.offsetTop - element.offsetTop - element.clientHeight / 2;
}
