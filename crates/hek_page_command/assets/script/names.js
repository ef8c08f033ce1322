/* ================================================================ names in few letters */

/** Names of so many letters stand as they are. */
const MOST_LETTERS = 2;

/** For each of some names a short form that tells it apart: its first letter, or two of its letters, or a letter and its number. */
function shortForms(names) {
  const short = new Map(names.filter((it) => it.length <= MOST_LETTERS).map((it) => [it, it]));
  for (const formsOf of [(it) => [it[0]], numberedForms, pairsOf]) {
    const left = names.filter((it) => !short.has(it));
    const uses = new Map();
    for (const name of left) for (const form of new Set(formsOf(name))) uses.set(form, (uses.get(form) ?? 0) + 1);
    const taken = new Set(short.values());
    for (const name of left) {
      const form = formsOf(name).find((it) => uses.get(it) === 1 && !taken.has(it));
      if (form) { short.set(name, form); taken.add(form); }
    }
  }
  names.forEach((name, index) => { if (!short.has(name)) short.set(name, `${headOf(name)}${index + 1}`); });
  return short;
}

/** The letter before a number: a small v with a number is a version. */
const headOf = (name) => (name[0] === "v" ? "V" : name[0]);

/** `c8` of `customer8`. */
function numberedForms(name) {
  const [number] = /\d{1,2}$/.exec(name) ?? [];
  return number ? [headOf(name) + number] : [];
}

/** The first letter with each later one: `au`, `ad`, .. of `audit`. */
const pairsOf = (name) => [...name.slice(1)].filter((it) => it !== "_").map((it) => (/\d/.test(it) ? headOf(name) : name[0]) + it);

/** The short form of a transaction's name, where there is no room for the whole. */
const shortOf = (id) => run.short.get(nameOf(id)) ?? String(id);

/** A text about transactions: with their names, or with their short forms. */
const namedTexts = (id, textOf) => (nameOf(id) === shortOf(id) ? [textOf(nameOf(id))] : [textOf(nameOf(id)), textOf(shortOf(id))]);
