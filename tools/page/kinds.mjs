// What a row's mark tells of it beside its table: the kind, which is the first word of its title, by a letter; or the
// class of its amount, by a digit.

import { SPACE } from "./notes.mjs";
import { numeral, phrase } from "./tongue.mjs";
import { folded } from "./typed.mjs";

// How many kinds and classes a table has at most, and how many rows a kind has at least.
const MOST_KINDS = 8, MOST_CLASSES = 5, LEAST_OF_A_KIND = 2;
const SPACES = new RegExp(SPACE), IS_WORD = /\p{L}/u;
const AROUND = /^[^\p{L}\p{N}]+|[^\p{L}\p{N}]+$/gu;

/**
 * @typedef {{ sign: string, words: string, count: number }} Kind what the mark of such a row has in it, what that says,
 *   and of how many rows it is
 * @typedef {{ title: string, amount: number }} Row
 */

/**
 * The first word of a title, without signs around it; empty where it has none with a letter.
 * @param {string} title
 */
export function firstWord(title) {
  const word = title.trim().split(SPACES, 1)[0].replace(AROUND, "");
  return IS_WORD.test(word) ? word : "";
}

/**
 * A letter or digit of a word that no other kind has; empty where all are taken.
 * @param {string} word
 * @param {Set<string>} taken
 */
function letterOf(word, taken) {
  const free = [...word.normalize("NFC").toUpperCase()].find(it => /[\p{L}\p{N}]/u.test(it) && !taken.has(it)) ?? "";
  taken.add(free);
  return free;
}

/**
 * The first words that are common among titles, the most common first, as the first title spells them: by the word as
 * it is searched.
 * @param {string[]} titles
 * @param {number} [most]
 */
export function commonWords(titles, most = MOST_KINDS) {
  const counts = /** @type {Map<string, { word: string, count: number }>} */ (new Map());
  for (const title of titles) {
    const word = firstWord(title), key = folded(word), there = counts.get(key);
    if (there) there.count += 1;
    else if (word) counts.set(key, { word, count: 1 });
  }
  const common = [...counts].filter(([, it]) => it.count >= LEAST_OF_A_KIND);
  return new Map(common.sort(([, one], [, other]) => other.count - one.count).slice(0, most));
}

/**
 * The kinds of rows, by the word that such a title begins with as it is searched.
 * @param {Row[]} rows
 * @returns {Map<string, Kind>}
 */
function kindsOf(rows) {
  const taken = new Set([""]);
  return new Map([...commonWords(rows.map(it => it.title))]
    .map(([key, { word, count }]) => [key, { sign: letterOf(word, taken), words: word, count }]));
}

/**
 * The classes of amounts, by their greatest amounts in their order: each of some amounts, or with about as many rows.
 * @param {number[]} amounts
 * @returns {Map<number, Kind>}
 */
function classesOf(amounts) {
  const sorted = [...amounts].sort((one, other) => one - other), all = new Set(sorted), found = new Map();
  let first = 0;
  for (let at = 0; at < sorted.length; at++) {
    const isLast = sorted[at + 1] !== sorted[at], left = MOST_CLASSES - found.size;
    const isFull = all.size <= MOST_CLASSES || at + 1 - first >= (sorted.length - first) / left;
    if (!isLast || !isFull) continue;
    const [from, to] = [sorted[first], sorted[at]].map(it => numeral(it.toLocaleString("en")));
    found.set(sorted[at], { sign: String(found.size + 1), words: from === to ? from : phrase("{0} to {1}", from, to),
      count: at + 1 - first });
    first = at + 1;
  }
  return found;
}

/**
 * What the marks of a table's rows tell: the kinds, and which of them a row is of.
 * @param {"word" | "amount" | string} tells nothing by any other word
 * @param {Row[]} rows all of the table
 * @returns {{ kinds: Kind[], of: (row: Row) => Kind | undefined }}
 */
export function toldByMarks(tells, rows) {
  if (tells === "word") {
    const kinds = kindsOf(rows);
    return { kinds: [...kinds.values()], of: ({ title }) => kinds.get(folded(firstWord(title))) };
  }
  if (tells !== "amount") return { kinds: [], of: () => undefined };
  const classes = [...classesOf(rows.map(it => it.amount))];
  return { kinds: classes.map(([, it]) => it), of: ({ amount }) => classes.find(([most]) => amount <= most)?.[1] };
}
