// Texts: how wide they are, how they are cut, and how they stand in HTML and SVG. Pure.

// The widths of the characters from U+0020 to U+007E in DejaVu Sans, the widest font that a system has for a page, each a digit of base 36 in units of
// 0.032 em: as they are, and in bold.
const PLAIN = "adfqkup9ccgqacabkkkkkkkkkkbbqqqhwmmmokipoaaliropjpmkjnmvmjmcbcqggjkhkkbkk99i9vkjkkdhdkjqjjhkbkq";
const STRONG = "bfhqmwsaffhqcdccmmmmmmmmmmddqqqiwoonqmmqqccpkvqrnronmqozonnfcfqgglnjnlennbblbxnmnngjfnltklincnq";
const UNIT = 0.032, OTHER = 0.84, SQUARE = 1.02;
// Characters as wide as they are high: those of Chinese, Japanese and Korean, pictures, and the sign of what is cut.
const isSquare = (char) => /[…\u1100-\u115f\u2e80-\ua4cf\uac00-\ud7a3\uf900-\ufaff\ufe30-\ufe6f\uff00-\uff60\uffe0-\uffe6]|[\u{1f000}-\u{3ffff}]/u.test(char);

function widthOf(char, widths) {
  const digit = widths[char.charCodeAt(0) - 32];
  if (digit !== undefined) return UNIT * parseInt(digit, 36);
  return /\p{M}/u.test(char) ? 0 : isSquare(char) ? SQUARE : OTHER;
}

/** How wide a text is at a size of type, in the unit of that size; rather more than less, for each font that may be there. */
export const wide = (text, size, weight = 400) => [...String(text)].reduce((sum, char) => sum + widthOf(char, weight > 500 ? STRONG : PLAIN), 0) * size;

/** The text in so much room: whole, or its beginning and `…`. */
export function cut(text, room, size, weight = 400) {
  const all = [...String(text)];
  if (wide(text, size, weight) <= room) return String(text);
  let left = room - wide("…", size, weight), count = 0;
  while (count < all.length && left >= wide(all[count], size, weight)) left -= wide(all[count++], size, weight);
  return count ? all.slice(0, count).join("") + "…" : "…";
}

/** The first of some texts that has room, or the last one, cut. */
export const fitting = (texts, room, size, weight = 400) => texts.find((it) => wide(it, size, weight) <= room) ?? cut(texts.at(-1), room, size, weight);

// Controls, and characters that turn the order of the ones after them.
const HIDDEN = /[\u0000-\u0008\u000b-\u001f\u007f-\u009f\u061c\u200e\u200f\u202a-\u202e\u2066-\u2069]/g;
const ENTITIES = { "&": "&amp;", "<": "&lt;", ">": "&gt;", '"': "&quot;", "'": "&#39;" };

/** A text that isn't ours, with a picture in place of each control. */
export const shown = (text) => String(text).replace(HIDDEN, (it) => (it < " " ? String.fromCharCode(0x2400 + it.charCodeAt(0)) : it === "\u007f" ? "\u2421" : "\ufffd"));

/** A text as it stands in HTML and SVG, also within quotes. */
export const esc = (text) => shown(text).replace(/[&<>"']/g, (it) => ENTITIES[it]);

/** What JSON says; a number of more digits than JavaScript keeps is a text. */
export const parse = (json) => JSON.parse(json.replace(/"[^"\\]*(?:\\.[^"\\]*)*"|-?\d{16,}/g, (it) => (it[0] === '"' ? it : `"${it}"`)));

/** A whole number, its digits in groups of three. */
export const grouped = (number) => String(number).replace(/\B(?=(\d{3})+$)/g, ",");

/** Names in a row: `a, b and c`. */
export const list = (texts) => (texts.length < 2 ? texts.join("") : `${texts.slice(0, -1).join(", ")} and ${texts.at(-1)}`);

/** Sentences one after another, each with a capital letter and its full stop; empty ones are none. */
export const sentences = (all) => all.filter(Boolean).map((it) => it[0].toUpperCase() + it.slice(1) + (/[.!?]$/.test(it) ? "" : ".")).join(" ");

// A transaction's name stands in braces in a sentence, which no name has.
const NAMED = /\{([^{}]*)\}/g;

/** A sentence without the braces of its names. */
export const plain = (sentence) => sentence.replace(NAMED, "$1");

/** A sentence as HTML, each name of `names` in the colour of its place there. */
export function rich(sentence, names) {
  return sentence.split(NAMED).map((part, index) => {
    const t = index % 2 ? names.indexOf(part) : -1;
    return t < 0 ? esc(part.replace(/'/g, "’")) : `<b class="n${t % COLOURS_IN_USE}">${esc(part)}</b>`;
  }).join("");
}

/** So many colours transactions have; those after them begin anew. */
export const COLOURS_IN_USE = 8;
