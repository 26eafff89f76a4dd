// What the device told of a place that a form took from it, as words of a note that stand one behind another: acc=, h=
// and age= (docs/FORMATS.md, section 12).

import { SPACE } from "./notes.mjs";
import { WORD } from "./notewords.mjs";

const BEHIND = ["h", "age"];  // what may stand behind acc, in this order
const TOLD_NUMBER = /^-?\d{1,9}(\.\d{1,6})?$/;
const TOLD_ENDS = new RegExp(`^${SPACE}+|${SPACE}+$`, "g");
const EXACT = 0.1;            // metres, up to which a place is worth a millimetre

/**
 * What the device told of a place: within how many metres it is, and its height in metres above the ellipsoid.
 * @typedef {{ accuracy: number | null, height: number | null }} Told
 */

/**
 * Where the words of the device stand in a note; null where it has none. A height by itself is somebody's own.
 * @param {string} note
 */
function toldWordsIn(note) {
  const words = [...note.matchAll(WORD)];
  const first = words.findIndex(([, name, value]) => name === "acc" && TOLD_NUMBER.test(value));
  if (first < 0) return null;
  const from = words[first].index ?? 0;
  let end = from + words[first][0].length, next = words[first + 1], at = first + 1;
  for (const name of BEHIND) {
    if (next?.[1] !== name || !TOLD_NUMBER.test(next[2]) || next.index !== end) continue;
    end += next[0].length;
    next = words[++at];
  }
  return { from, end };
}

/**
 * A note parted into the words of the device and the rest; both as they stand, without white space at their ends.
 * @param {string} note
 */
export function parted(note) {
  const found = toldWordsIn(note);
  if (!found) return { told: "", rest: note };
  const told = note.slice(found.from, found.end).replace(TOLD_ENDS, "");
  return { told, rest: (note.slice(0, found.from) + note.slice(found.end)).replace(TOLD_ENDS, "") };
}

/**
 * How many decimals of a metre a place is worth.
 * @param {number | null} accuracy
 */
export const digitsOf = accuracy => accuracy !== null && accuracy < EXACT ? 3 : 2;

/**
 * A number as a word has it: without an exponent, and without zeros behind.
 * @type {(value: number, digits: number) => string}
 */
const spelledAs = (value, digits) => String(Number(value.toFixed(digits)) || 0);

/**
 * The words of a place that the device told so many seconds ago; none where it didn't tell how exact that is.
 * @param {Told} told
 * @param {number} age
 * @param {boolean} [hasHeight] whether the note has a height of its own, beside which there is none of the device
 */
export function wordsTold({ accuracy, height }, age, hasHeight = false) {
  if (accuracy === null) return "";
  const within = `acc=${spelledAs(accuracy, accuracy < 1 ? 3 : 1)}`;
  const high = height === null || hasHeight ? [] : [`h=${spelledAs(height, digitsOf(accuracy))}`];
  return [within, ...high, `age=${Math.floor(age)}`].join(" ");
}

/**
 * The height that a note has of its own, beside what the device told; empty where it has none.
 * @param {string} note
 */
export function ownHeight(note) {
  const found = [...parted(note).rest.matchAll(WORD)].find(it => it[1] === "h");
  return found ? `h=${found[2]}` : "";
}

/**
 * A note with the words of the device behind its text, in place of those that it had.
 * @param {string} note
 * @param {string} words
 */
export const withTold = (note, words) => [parted(note).rest, words].filter(it => it).join(" ");
