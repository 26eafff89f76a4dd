// What a row was before it was changed: a row of the table 'history', which is related to it (docs/FORMATS.md, section
// 12).

import { differing, isSameRow, PARTS } from "./changes.mjs";
import { recordsToKeep, rowRecord } from "./records.mjs";

/** The table whose rows are what other rows were. */
export const HISTORY = "history";
const MOST_NOTE_OF_PAST = 1000;

/**
 * @typedef {import("./changes.mjs").Row} Row
 * @typedef {import("./records.mjs").Fields} Fields
 * @typedef {import("./records.mjs").Past} Past
 * @typedef {{ mapping: string, base: string, related: string, name: string }} Relation
 */

/** @type {(it: Relation) => boolean} */
const leadsToPast = it => it.related === HISTORY && it.name === "simple_attributes" && it.base !== HISTORY;

/**
 * The mapping that relates rows of a table to what they were, the first by name; null where the office has laid out
 * none.
 * @param {Relation[]} relations
 * @param {string} table
 */
export function pastOfTable(relations, table) {
  const found = relations.filter(it => leadsToPast(it) && it.base === table).map(it => it.mapping);
  return found.sort()[0] ?? null;
}

/**
 * Whether a table has what rows were, and none that a crew works on.
 * @param {Relation[]} relations
 * @param {string} table
 */
export const isPastTable = (relations, table) => table === HISTORY && relations.some(leadsToPast);

/** @type {(table: string, id: number) => string} */
const wordOfRow = (table, id) => `of=${table}/${id}`;

/**
 * What a row was, as a row of the history: its note says behind all else of which row it is, where it has room.
 * @param {string} table
 * @param {Row} row
 * @param {string} mapping
 * @param {number} id its own number
 * @returns {Past}
 */
export function pastOf(table, row, mapping, id) {
  const { title, amount } = row, note = [row.note, wordOfRow(table, row.id)].filter(it => it).join(" ");
  const hasRoom = new TextEncoder().encode(note).length <= MOST_NOTE_OF_PAST;
  return { mapping, row: { id, title, note: hasRoom ? note : row.note, amount } };
}

/** @type {(past: Past) => string} */
const lettersOf = ({ mapping, row: { title, note, amount } }) => JSON.stringify([mapping, title, note, amount]);

/**
 * What is written of a row before another takes its place: as it was kept before a sending whose answer was cut, where
 * the same row is written over, so that it stands once.
 * @param {Past | null | undefined} kept
 * @param {Past} now
 */
export const pastAgain = (kept, now) => kept && lettersOf(kept) === lettersOf(now) ? kept : now;

/**
 * The records of what a row was.
 * @param {Past} past
 * @param {number} of the row's number
 * @returns {Fields[]}
 */
export const recordsOfPast = ({ mapping, row }, of) => [rowRecord(HISTORY, row), ["map", mapping, of, row.id]];

/**
 * The records that an act leaves as a file, with what was kept of its row before it was sent.
 * @param {import("./records.mjs").Act} act
 */
export const recordsToLeave = act => [...act.past ? recordsOfPast(act.past, act.of ?? 0) : [], ...recordsToKeep(act)];

/**
 * The record of what a row was that is removed, to which nothing can be related.
 * @param {Past} past
 * @returns {Fields[]}
 */
export const recordsOfRemoved = ({ row }) => [rowRecord(HISTORY, row)];

/**
 * A row as it was, letter by letter, by a row of the history. The number that its note tells may be another: the office
 * may have given the row a new one since.
 * @param {Row} past
 * @param {string} table
 * @param {number} id
 * @returns {Row}
 */
export function rowBefore({ title, note, amount }, table, id) {
  const told = new RegExp(`(?:^| )of=${table}/[1-9][0-9]{0,15}$`).exec(note);
  return { id, title, note: told ? note.slice(0, told.index) : note, amount };
}

/**
 * The numbers of what a row was, the newest first, by what it is related to.
 * @param {{ id: number, mapping: string }[]} related
 * @param {string | null} mapping
 */
export const numbersOfPast = (related, mapping) => related.filter(it => it.mapping === mapping).map(it => it.id)
  .sort((one, other) => other - one);

/**
 * What a row was, the newest first, each with the parts in which it is another than what came behind it; what is the
 * same as that is left out.
 * @template {{ row: Row }} Version
 * @param {Row | null} now the row as it stands
 * @param {Version[]} before
 * @param {number | null} only the system of all maps
 * @returns {(Version & { parts: string[] })[]}
 */
export function versionsOf(now, before, only) {
  const found = /** @type {(Version & { parts: string[] })[]} */ ([]);
  let next = now;
  for (const it of before) {
    if (isSameRow(it.row, next)) continue;
    found.push({ ...it, parts: next ? differing(it.row, next, only) : PARTS });
    next = it.row;
  }
  return found;
}
