// What two sides changed of one row: what the form saw, what it says now, and what stands in the package.

import { noteOf, placeOfNote, wordOf } from "./notes.mjs";
import { parted, withTold } from "./told.mjs";
import { laterOf, signatureIn, signed, unsigned } from "./signing.mjs";

/**
 * @typedef {{ id: number, title: string, note: string, amount: number }} Row
 * @typedef {{ is: "mine", row: Row } | { is: "joined", row: Row, parts: string[] }
 *   | { is: "apart", parts: string[] }} Verdict
 */

const MOST_NOTE = 1000;

/** The parts of a row that two may change apart. */
export const PARTS = ["title", "place", "note", "amount"];

/**
 * The parts of a row: its note without the place's word and what the device told of that, which goes with it, and
 * without who saved it and when.
 * @param {Row} row
 * @param {number | null} only the system of all maps
 * @returns {Record<string, string | number>}
 */
export function partsOf({ title, note, amount }, only) {
  const own = unsigned(note), place = placeOfNote(own, only), { told, rest } = parted(place ? place.rest : own);
  return { title, place: [wordOf(place), told].filter(it => it).join(" "), note: rest, amount };
}

/**
 * Whether two rows are letter by letter the same, but for who saved them and when; a row that isn't there is null.
 * @param {Row | null | undefined} one
 * @param {Row | null | undefined} other
 */
export const isSameRow = (one, other) => one && other
  ? one.title === other.title && unsigned(one.note) === unsigned(other.note) && one.amount === other.amount
  : !one && !other;

/**
 * The parts by which two rows differ.
 * @param {Row} one
 * @param {Row} other
 * @param {number | null} only
 */
export function differing(one, other, only) {
  const [here, there] = [partsOf(one, only), partsOf(other, only)];
  const found = PARTS.filter(it => here[it] !== there[it]);
  const isBySpace = unsigned(one.note) !== unsigned(other.note) && !found.includes("place") && !found.includes("note");
  return isBySpace ? [...found, "note"] : found;
}

/** @type {(row: Row) => boolean} */
const isTooLong = ({ note }) => new TextEncoder().encode(note).length > MOST_NOTE;

/** @type {(row: Row) => Row} */
const bare = row => ({ ...row, note: unsigned(row.note) });

/**
 * The row of both sides: each part from who alone changed it, and those that both changed from one of them. A note that
 * one side alone changed stays letter by letter. Who saved it is who did so later.
 * @param {Row} saw
 * @param {Row} mine
 * @param {Row} theirs
 * @param {number | null} only
 * @param {boolean} isMine whether what both changed is mine
 * @returns {Row}
 */
function mergedRow(saw, mine, theirs, only, isMine) {
  const row = mergedParts(bare(saw), bare(mine), bare(theirs), only, isMine);
  const [own, other] = [mine, theirs].map(it => signatureIn(it.note).signature);
  return { ...row, note: signed(row.note, laterOf(own, other)) };
}

/** @type {typeof mergedRow} */
function mergedParts(saw, mine, theirs, only, isMine) {
  const here = differing(saw, mine, only), there = differing(saw, theirs, only);
  /** @type {(part: string) => Row} */
  const from = part => here.includes(part) && (isMine || !there.includes(part)) ? mine : theirs;
  const [place, rest] = [from("place"), from("note")];
  const text = withTold(String(partsOf(rest, only).note), parted(place.note).told);
  const note = mine.note === saw.note ? theirs.note : theirs.note === saw.note ? mine.note
    : place === rest ? place.note : noteOf(placeOfNote(place.note, only), text);
  return { id: mine.id, title: from("title").title, note, amount: from("amount").amount };
}

/**
 * The row that somebody wants of two that were set apart: what both changed is of one side, all else of who changed it.
 * @param {Row | null | undefined} saw
 * @param {Row} mine
 * @param {Row | null} theirs
 * @param {number | null} only
 * @param {boolean} isMine
 * @returns {Row}
 */
export function settled(saw, mine, theirs, only, isMine) {
  if (!theirs) return mine;
  if (!saw) return isMine ? mine : theirs;
  const row = mergedRow(saw, mine, theirs, only, isMine);
  return isTooLong(row) ? { ...row, note: (isMine ? mine : theirs).note } : row;
}

/**
 * What comes of a row that stands as it is wanted: who saved it is who did so later.
 * @param {Row} mine
 * @param {Row} theirs
 * @returns {Verdict}
 */
function isSigned(mine, theirs) {
  const [own, other] = [mine, theirs].map(it => signatureIn(it.note).signature), later = laterOf(own, other);
  return later === own ? { is: "mine", row: mine }
    : { is: "joined", row: { ...mine, note: signed(mine.note, later) }, parts: [] };
}

/**
 * What comes of a row that a form changed, where another may have changed it meanwhile. `saw` is the row as the form
 * showed it, null of a new one, undefined where that isn't known; `theirs` is null where there is none.
 * @param {Row | null | undefined} saw
 * @param {Row} mine
 * @param {Row | null} theirs
 * @param {number | null} only
 * @returns {Verdict}
 */
export function joined(saw, mine, theirs, only) {
  if (theirs && isSameRow(mine, theirs)) return isSigned(mine, theirs);
  if (!theirs && !saw || isSameRow(saw, theirs)) return { is: "mine", row: mine };
  if (!theirs) return { is: "apart", parts: [] };
  if (!saw) return { is: "apart", parts: differing(mine, theirs, only) };
  const here = differing(saw, mine, only), there = differing(saw, theirs, only), unlike = differing(mine, theirs, only);
  const both = here.filter(it => there.includes(it) && unlike.includes(it));
  const row = mergedRow(saw, mine, theirs, only, true);
  if (both.length) return { is: "apart", parts: both };
  if (isTooLong(row)) return { is: "apart", parts: ["note"] };
  return { is: "joined", row, parts: there.filter(it => unlike.includes(it)) };
}
