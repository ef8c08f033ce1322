// Questions to a class: what the next move comes to, before it is shown. Pure.
import { VERDICTS } from "./story.mjs";
import { esc, plain, rich } from "./text.mjs";

const named = (name) => `{${name}}`;
const isOpen = (story, t, index) => story.columns.some((it, at) => it.t === t && at < index) && !story.columns.some((it, at) => it.t === t && at < index && /commit|abort/.test(it.kind));
const others = (story, t, index) => story.names.map((_, other) => other).filter((other) => other !== t && isOpen(story, other, index));

/** The values that a read of a key could find: what is committed or written so far. */
function candidates(story, key, index) {
  const track = story.tracks.find((it) => String(it.key) === String(key));
  const seen = [...(track?.segments ?? []), ...(track?.pending ?? [])].filter((it) => it.t === null || it.from < index).map(({ value }) => value ?? "nothing");
  return [...new Set(seen.map(String))];
}

const wasWritten = (story, { t, key }, index) => story.columns.some((it, at) => at < index && it.kind === "write" && it.t !== t && String(it.key) === String(key));

/** The right answer to a move, as one of its choices. */
function answerOf(story, column) {
  const { kind, value } = column;
  if (kind === "read") return String(value ?? "nothing");
  if (kind === "wait") return `waits for ${column.for.map(({ txn }) => named(txn)).join(", ")}`;
  return { write: "writes", miss: "writes nothing", skip: "leaves it out", commit: "commits", abort: "aborts" }[kind];
}

function choicesOf(story, column, index) {
  const { kind, t, key } = column, isEnd = /wait|commit/.test(kind) || (kind === "abort" && !column.op);
  if (kind === "read" || (kind === "abort" && column.op === "read")) return [...candidates(story, key, index), "aborts"];
  if (isEnd) return ["commits", ...others(story, t, index).map((other) => `waits for ${named(story.names[other])}`), "aborts"];
  if (kind === "skip") return ["writes", "leaves it out"];
  return wasWritten(story, column, index) || kind !== "write" ? ["writes", "aborts"] : [];
}

const wordsOf = (column) => {
  const isEnd = /wait|commit/.test(column.kind) || (column.kind === "abort" && !column.op), me = named(column.txn);
  if (isEnd) return `${me} wants to commit. What happens?`;
  return column.kind === "read" || column.op === "read" ? `${me} reads ${column.key}. What does it find?` : `${me} wants to write ${column.key}. What happens?`;
};

/** The question before the move that follows a position: its words, its choices and the right one; null where there is nothing to ask. */
export function questionAt(story, position) {
  const column = story.columns[position];
  if (position === story.columns.length) return { words: "And all of it together?", choices: Object.values(VERDICTS).slice(0, 3), right: VERDICTS[story.verdict.kind] };
  if (!column || column.kind === "scan" || column.op === "scan" || column.kind === "refused" || (column.isLate && column.kind === "commit")) return null;
  if (column.kind === "abort" && column.cause === "asked") return null;
  const right = answerOf(story, column), choices = [...new Set([...choicesOf(story, column, position), right])];
  return choices.length > 2 || (choices.length === 2 && !/read/.test(column.kind)) ? { words: wordsOf(column), choices, right } : null;
}

/** All questions of a story, each with the position before its move. */
export const questions = (story) => Array.from({ length: story.columns.length + 1 }, (_, position) => ({ position, ...questionAt(story, position) })).filter((it) => it.words);

/** A question as HTML: its words and a button for each choice. */
export const questionHtml = ({ words, choices }, names) => `<p>${rich(words, names)}</p><p class="choices">${choices.map((it, index) => `<button data-choice="${index}"><kbd>${index + 1}</kbd> ${rich(it, names)}</button>`).join(" ")}</p>`;

/** What was answered, to hand in: how many were right, and each answer. `answers` has the choice by position. */
export function result(title, story, answers) {
  const asked = questions(story).filter(({ position }) => answers.has(position)), right = asked.filter(({ position, right: it }) => answers.get(position) === it).length;
  const line = ({ position, words, right: it }) => `${position + 1}. ${plain(words)} ${plain(answers.get(position))} ${answers.get(position) === it ? "✓" : `✗ (${plain(it)})`}`;
  return [`${title}: ${right} of ${asked.length} right`, ...asked.map(line)].join("\n");
}

/** A sheet of paper: each move without what it comes to, its choices, and the rows at the end. */
export function worksheet(story) {
  const item = ({ position, words, choices }) => `<li value="${Math.min(position + 1, story.columns.length + 1)}"><p>${rich(words, story.names)}</p><p>${choices.map((it) => `☐ ${rich(it, story.names)}`).join(" &nbsp; ")}</p></li>`;
  const asked = new Map(questions(story).map((it) => [it.position, it]));
  const plainly = (column, position) => `<li value="${position + 1}"><p>${rich(column.kind === "scan" ? `${named(column.txn)} scans: ______` : column.kind === "commit" || column.kind === "abort" ? `${named(column.txn)} ends: ______` : column.kind === "read" ? `${named(column.txn)} reads ${column.key}: ______` : column.say, story.names)}</p></li>`;
  const moves = story.columns.map((column, position) => (asked.has(position) ? item(asked.get(position)) : plainly(column, position))).join("");
  const last = asked.get(story.columns.length), rows = story.tracks.map(({ key }) => `${esc(key)} = ______`).join(" &nbsp; ");
  return `<ol class="sheet">${moves}${last ? item(last) : ""}</ol>${rows ? `<p>The rows at the end: ${rows}</p>` : ""}<p>${story.names.map((name, t) => `${rich(named(name), story.names)}: ☐ committed ☐ aborted`).join(" &nbsp; ")}</p>`;
}

