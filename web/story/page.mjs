// The story on a page of hek, whose plays are in it. The panels of the machine stand beside it: one of the two is shown.
import { Player, showText } from "./player.mjs";
import { playOfLog } from "./log.mjs";
import { movesAt, stepAfter, storyOf } from "./story.mjs";
import { WRITTEN } from "./view.mjs";

const LEVELS = ["serializable", "repeatable", "snapshot"];
const byId = (id) => document.getElementById(id);
const wordOf = (level) => (level === WRITTEN ? "written" : level);
const same = (one, other) => one.join(" ") === other.join(" ");

/** A play's level: that which was asked for, or that of its transactions, if they are of one. */
const levelOf = ({ level, levels }) => level ?? (new Set(levels).size === 1 ? levels[0] : WRITTEN);

/** The outcomes of a table of all levels, by level. */
function outcomesOf(rows) {
  if (!rows.length) return {};
  return Object.fromEntries(LEVELS.map((level) => {
    const outcomes = rows.filter((it) => Number(it.levels[level]) > 0).map((it) => ({ ...it, orders: Number(it.levels[level]), first: it.first[level] }));
    return [level, { orders: outcomes.reduce((sum, it) => sum + it.orders, 0), outcomes }];
  }));
}

export class StoryPage {
  /** `sheet` has the title, what it is about, and the text; `objects` are plays and rows of a table of outcomes, or what is said of a log; `panels` shows the machine. */
  constructor(sheet, objects, panels) {
    Object.assign(this, { sheet, panels, models: new Map() });
    this.text = sheet.text ?? "";
    const log = objects.find((it) => it.kind === "verdict");
    this.plays = log ? [playOfLog(this.text, log)] : objects.filter((it) => it.kind === "play");
    this.outcomes = outcomesOf(objects.filter((it) => it.kind === undefined && it.levels !== undefined));
    this.isLog = Boolean(log);
    [this.own] = this.plays;
    this.place = { level: log ? "serializable" : levelOf(this.own), step: 0, mode: "", asks: false };
    this.order = this.own.order ?? [];
    this.player = new Player({ go: (change, isEntry, options) => this.go(change, isEntry, options) });
    byId("st-back").addEventListener("click", () => history.back());
    addEventListener("resize", () => { if (this.isOpen) this.show(); });
    byId("st-machine").hidden = this.isLog || !panels;
  }

  /** What is known of an order: its story at each level that has one. */
  model(order) {
    const id = order.join(" ");
    if (!this.models.has(id)) {
      const stories = {};
      for (const play of this.plays) if (same(play.order ?? [], order)) stories[this.isLog ? "serializable" : levelOf(play)] ??= storyOf(play, this.text);
      const { title, about, question } = this.sheet;
      this.models.set(id, { id, title, text: this.text, about: about ?? "", question: question ?? "", stories, outcomes: this.outcomes, levels: [WRITTEN, ...LEVELS].filter((it) => stories[it]),
        order, isOwnOrder: same(order, this.own.order ?? []), asides: [], uncounted: "" });
    }
    return this.models.get(id);
  }

  has(order, level = null) { return this.plays.some((it) => same(it.order ?? [], order) && (level === null || levelOf(it) === level)); }

  /** The verdict of the story of an order at a level. */
  open(order, level) {
    this.order = order;
    this.place = { ...this.place, level: level ?? this.place.level, step: Infinity, mode: "" };
    this.show();
    this.write();
  }

  show(options) {
    const model = this.model(this.order);
    if (!model.stories[this.place.level]) this.place.level = model.levels[0];
    this.place.step = Math.max(0, Math.min(this.place.step, model.stories[this.place.level].columns.length + 1));
    // What isn't shown has no width: the story is drawn when it is.
    document.documentElement.classList.add("told");
    this.player.show(model, this.place, options);
    showText(byId("st-text"), this.text, this.player.story, this.place.step);
    byId("st-back").hidden = !(history.state?.depth > 0);
  }

  get isOpen() { return document.documentElement.classList.contains("told"); }

  go(change, isEntry = false, options = {}) {
    if (change.mode === "machine") return this.openMachine();
    const { order, ...rest } = change;
    if (isEntry) try { history.pushState({ depth: (history.state?.depth ?? 0) + 1 }, "", this.address()); } catch {}
    if (order && this.has(order)) this.order = order;
    this.place = { ...this.place, ...rest };
    this.show(options);
    this.write();
    return undefined;
  }

  /** The machine after the last step of the move. */
  openMachine() {
    if (!this.panels || this.isLog) return;
    document.documentElement.classList.remove("told");
    this.opened = stepAfter(this.player.story, this.place.step);
    this.panels.open(this.opened);
  }

  /** Back from the machine, at the move to which its step belongs: the one that was left, if the machine is where it was opened. */
  close(step) {
    this.place = { ...this.place, mode: "", step: step === this.opened ? this.place.step : movesAt(this.player.story, step) };
    this.show();
    this.write();
  }

  address() {
    const { level, step } = this.place, isOwn = same(this.order, this.own.order ?? []), order = isOwn ? "" : `/${this.order.join(".")}`, front = isOwn && level === levelOf(this.own) ? "" : `${wordOf(level)}${order}`;
    return `#${front}${step || front ? `@${step}` : ""}`;
  }

  write() {
    const to = this.address();
    if (location.hash !== to) try { history.replaceState(history.state, "", to === "#" ? location.pathname + location.search : to); } catch {}
  }

  /** Shows what an address says; answers whether it is one of the story. One that says nothing is the story's own, if it is `isFirst`. */
  read(hash, isFirst) {
    if (hash.replace(/^#/, "") === "" && !isFirst) return false;
    const [front, at = ""] = hash.replace(/^#/, "").split("@"), [word, order] = front.split("/"), level = word === "written" ? WRITTEN : word;
    if (!/^\d{0,6}$/.test(at) || (front !== "" && level !== WRITTEN && !LEVELS.includes(level)) || (front === "" && at === "" && hash.replace(/^#/, "") !== "")) return false;
    const asked = order?.split(".") ?? this.own.order ?? [];
    this.order = this.has(asked) ? asked : this.own.order ?? [];
    this.place = { ...this.place, level: front ? level : levelOf(this.own), step: Number(at || 0), mode: "" };
    if (this.isLog) this.place.level = "serializable";
    this.show();
    return true;
  }
}
