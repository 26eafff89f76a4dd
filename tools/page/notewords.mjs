// Values of further columns, as words NAME=VALUE of a note (docs/FORMATS.md, section 12); tools/note_words.py has the
// same for the office.

import { SPACE } from "./notes.mjs";

const WHITE = SPACE.slice(1, -1);
export const WORD = new RegExp(
  `(?:^|${SPACE})([^="@${WHITE}][^="${WHITE}]*)=("(?:[^"]|"")*"|[^"${WHITE}][^${WHITE}]*)(?=${SPACE}|$)`, "g");
const NAME = new RegExp(`^[^="@${WHITE}][^="${WHITE}]*$`), SPACED = new RegExp(SPACE);
const ENDS = new RegExp(`^${SPACE}+|${SPACE}+$`, "g");
const WHOLE = /^(0|-?[1-9][0-9]{0,17})$/;
const DECIMAL = /^(-?(0|[1-9][0-9]{0,14})\.[0-9]{0,14}[1-9]|-?(0|[1-9][0-9]{0,14})\.0)$/;
// Outside these Python, which the office's tools are in, spells a decimal number with an exponent.
const LEAST_SPELLED = 1e-4, LEAST_EXPONENT = 1e16;

/**
 * The values that a note has as words, by their names, and the rest of it; of two of one name the first counts.
 * @param {string} note
 * @param {(name: string) => boolean} [isAsked] whether a word is asked for, by its name; others are of the rest
 */
export function columnsIn(note, isAsked = () => true) {
  /** @type {Map<string, string>} */
  const words = new Map();
  let rest = "", end = 0;
  for (const found of note.matchAll(WORD)) {
    const [whole, name, value] = found;
    if (words.has(name) || !isAsked(name)) continue;
    words.set(name, value.startsWith('"') ? value.slice(1, -1).replaceAll('""', '"') : value);
    rest += note.slice(end, found.index);
    end = (found.index ?? 0) + whole.length;
  }
  return { words, rest: (rest + note.slice(end)).replace(ENDS, "") };
}

/**
 * Where a word of a note stands, the white space before it included, and its value; of two of one name the first
 * counts. Null where there is none.
 * @param {string} note
 * @param {string} wanted its name
 */
export function wordIn(note, wanted) {
  for (const { 0: whole, 1: name, 2: value, index } of note.matchAll(WORD)) {
    const told = value.startsWith('"') ? value.slice(1, -1).replaceAll('""', '"') : value;
    if (name === wanted) return { from: index ?? 0, to: (index ?? 0) + whole.length, value: told };
  }
  return null;
}

/**
 * A value as a word of a note, of a name that a word can have.
 * @param {string} name
 * @param {string} value
 */
export function wordOfValue(name, value) {
  const isPlain = value !== "" && !value.startsWith('"') && !SPACED.test(value);
  return `${name}=${isPlain ? value : `"${value.replaceAll('"', '""')}"`}`;
}

/**
 * Whether a text can be the name of a word.
 * @param {string} text
 */
export const isNameOfWord = text => NAME.test(text);

/**
 * Whether a decimal number is spelled as a double is that the office's tools write, but for what stands behind a whole
 * one.
 * @param {string} value
 */
function isSpelled(value) {
  const number = Number(value), size = Math.abs(number), text = Object.is(number, -0) ? "-0" : String(number);
  return value.replace(/\.0$/, "") === text && (size === 0 || size >= LEAST_SPELLED && size < LEAST_EXPONENT);
}

/**
 * The type of a column with such values, by which none of them changes a letter.
 * @param {string[]} values
 * @returns {"INTEGER" | "REAL" | "TEXT"}
 */
export function typeOf(values) {
  if (values.every(it => WHOLE.test(it))) return "INTEGER";
  return values.every(it => (WHOLE.test(it) || DECIMAL.test(it)) && isSpelled(it)) ? "REAL" : "TEXT";
}

/**
 * Names of words in the order of their columns: those behind which the device tells a place stay behind each other, so
 * that they are words of it again where columns become words.
 * @param {string[]} names
 */
export function columnOrder(names) {
  const behind = ["h", "age"].filter(it => names.includes("acc") && names.includes(it));
  return names.filter(it => !behind.includes(it)).flatMap(it => it === "acc" ? [it, ...behind] : [it]);
}

/**
 * By name, a name of a column that no other has, whatever its letters' case: numbered where it is taken.
 * @param {string[]} names
 * @param {string[]} taken
 * @returns {Map<string, string>}
 */
export function freeNames(names, taken) {
  const used = new Set(taken.map(it => it.toLowerCase())), found = new Map();
  for (const name of names) {
    let free = name;
    for (let number = 2; used.has(free.toLowerCase()); number++) free = `${name}_${number}`;
    used.add(free.toLowerCase());
    found.set(name, free);
  }
  return found;
}

/**
 * The height that a note tells by its word h, in metres; null where it tells none.
 * @param {string} note
 */
export function heightIn(note) {
  const told = columnsIn(note).words.get("h") ?? "";
  return /^[-+]?\d{1,9}([.,]\d{1,6})?$/.test(told) ? Number(told.replace(",", ".")) : null;
}
