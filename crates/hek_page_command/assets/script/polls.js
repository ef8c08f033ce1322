/* ================================================================ steps that ask again, and change nothing */

/** The columns of the timeline: each step has its own, but steps side by side that only ask again share one. `polls` says for each step
    from 1 on whether it only asks again. Answers for each column its first and last step, and for each step its column, both from 1 on. */
function columnsOf(polls, last) {
  const [spans, columnAt] = [[null], [0]];
  for (let at = 1; at <= last; at++) {
    if (at > 1 && polls[at] && polls[at - 1]) spans.at(-1).to = at;
    else spans.push({ from: at, to: at });
    columnAt.push(spans.length - 1);
  }
  return { spans, columnAt };
}

/** The column of a step; one past the last step is one past the last column. */
const columnOf = (at) => run.columnAt[at] ?? run.spans.length + at - run.last - 1;

/** The steps that share the column of a step; of the start the start alone. */
const spanOf = (at) => run.spans[columnOf(at)] ?? { from: at, to: at };

/** How many columns there are. */
const columnCount = () => run.spans.length - 1;

/** Whether a step shares its column with others. */
const isFolded = (at) => at > 0 && spanOf(at).from < spanOf(at).to;

/** The position one column on, or back. */
const positionOn = (at) => (at >= run.last ? at : spanOf(at + 1).to);
const positionBack = (at) => (at === 0 ? 0 : spanOf(at).from - 1);

/** How often each transaction asks again in the column of a step, by ID. */
function askedAgain(at) {
  const counts = new Map();
  const { from, to } = spanOf(at);
  for (let each = from; each <= to; each++) {
    const id = run.ids.get(run.steps[each - 1].name);
    counts.set(id, (counts.get(id) ?? 0) + 1);
  }
  return counts;
}

const timesSaid = (count) => (count === 1 ? "once" : count === 2 ? "twice" : `${count} times`);

/** What the folded steps say together, as HTML. */
function foldedSentence(at) {
  const parts = [...askedAgain(at)].map(([id, count]) => `${tag(id)} asks again <b>${timesSaid(count)}</b>`);
  return `${parts.join(", ")}. Each answer is the same: <b>waiting</b>. Nothing changes.`;
}
