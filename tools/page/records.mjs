// The records of an act (docs/FORMATS.md, section 4), which has one list of them: what a form saves, what a removal
// takes along, and what puts that back.

import { nounOf } from "./media.mjs";

/**
 * @typedef {import("./changes.mjs").Row} Row
 * @typedef {(string | number)[]} Fields
 * @typedef {{ number?: number, at?: string, saved?: number, table: string, of?: number, what: string,
 *   records: Fields[], row?: Row, dropped?: number, saw?: Row | null, then?: Fields[], refused?: string,
 *   apart?: { theirs: Row | null, parts: string[] }, told?: Told, past?: Past }} Act
 * @typedef {{ parts: string[], theirs: Row, mine: Row }} Told
 * @typedef {{ mapping: string, row: Row }} Past what a row was, as a row of the history, and the mapping of that
 */

/**
 * @param {Row} row
 */
export const nameOf = ({ title, id }) => title || String(id);

/**
 * The record that writes a row.
 * @param {string} table
 * @param {Row} row
 * @returns {Fields}
 */
export const rowRecord = (table, { id, title, note, amount }) => ["row", table, id, title, note, amount];

/**
 * The numbers of the photos that an act brings.
 * @param {Act | null | undefined} act
 */
export const photosIn = act => (act?.records ?? []).filter(([word]) => word === "media").map(([, , id]) => Number(id));

/**
 * The acts that save a form: the first photo with the row, and each other one by itself, since a list has 16 MiB.
 * @param {{ table: string, row: Row, saw: Row | null, isSame: boolean, photos: { id: number, type?: string }[],
 *   relation?: { related: string, mapping: string }, number?: number }} form
 * @returns {Act[]}
 */
export function actsOfForm({ table, row, saw, isSame, photos, relation, number }) {
  /** @type {(it: { id: number, type?: string }) => Fields[]} */
  const photo = ({ id, type = "image/jpeg" }) => relation
    ? [["media", relation.related, id, type], ["map", relation.mapping, row.id, id]] : [];
  const [one, ...rest] = photos, base = { table, of: row.id }, name = nameOf(row);
  const records = [...isSame ? [] : [rowRecord(table, row)], ...one ? photo(one) : []];
  const what = name + (one ? `, with a ${nounOf(one.type)}` : "");
  const more = rest.map(it => ({ ...base, what: `${name}: one more ${nounOf(it.type)}`, records: photo(it) }));
  const made = [{ ...base, ...isSame ? {} : { row, saw }, what, records }, ...more];
  if (number !== undefined) Object.assign(made[0], { number });
  return made.filter(it => it.records.length > 0);
}

/**
 * The act that removes a row; it gets its records when it is sent.
 * @param {string} table
 * @param {Row} row as the form showed it
 * @returns {Act}
 */
export const removalOf = (table, row) =>
  ({ table, of: row.id, dropped: row.id, saw: row, what: `remove ${nameOf(row)}`, records: [] });

/**
 * A removal with its records: what leads from the row goes before it, and in a list behind it what tells of the row,
 * and photos.
 * @param {Act} act
 * @param {{ id: number, table: string, mapping: string, name: string }[]} related
 * @param {Fields[]} [told] the records that tell what the row was
 * @returns {Act}
 */
export function withRecords(act, related, told = []) {
  const taken = related.map(it => ["map-drop", it.mapping, act.dropped ?? 0, it.id]);
  const photos = related.filter(it => it.name === "media").map(it => ["media-drop", it.table, it.id]);
  const records = [...taken, ["row-drop", act.table, act.dropped ?? 0]];
  const before = (act.then ?? []).filter(([word]) => word !== "row");  // it was refused before, and nothing was told
  return { ...act, records, then: [...before, ...told, ...photos] };
}

/**
 * The act that puts back what a removal took off its row, where that stays: its mapping rows.
 * @param {Act} act
 * @param {Fields[]} taken the records that took it off
 * @returns {Act[]}
 */
export function putBack({ at, table, dropped, what }, taken) {
  const records = taken.map(([, ...row]) => ["map", ...row]);
  return records.length ? [{ at, table, of: dropped, what: `put back what belongs to it (${what})`, records }] : [];
}

/**
 * The records by which a refused removal took something off its row.
 * @param {Act} act
 * @param {string[]} lines
 */
export function takenOff({ records }, lines) {
  /** @type {(place: number, but: number) => boolean} */
  const isRefused = (place, but) => new RegExp(` refused (?!${but}$)`).test(lines[place]);
  const stays = records.some(([word], place) => word === "row-drop" && isRefused(place, 40));
  return records.filter(([word], place) => stays && word === "map-drop" && !isRefused(place, 46));
}

/**
 * The records that an act leaves as a file. Of a removal that wasn't sent yet that is the last alone: what leads from
 * the row only the package tells.
 * @param {Act} act
 */
export const recordsToKeep = ({ records, table, dropped, then = [] }) =>
  [...records.length ? records : [["row-drop", table, dropped ?? 0]], ...then];

/**
 * A field as records have it.
 * @param {string | number} text
 */
const field = text => /[",\r\n]/.test(String(text)) ? `"${String(text).replaceAll('"', '""')}"` : String(text);

/**
 * @param {Fields} fields
 */
export const lineOf = fields => fields.map(field).join(",");

/**
 * Bytes in hexadecimal digits of ASCII.
 * @param {Uint8Array} bytes
 */
export function hexOf(bytes) {
  const digits = new Uint8Array(2 * bytes.length);
  /** @type {(it: number) => number} */
  const digit = it => it + (it < 10 ? 48 : 87);
  for (let at = 0; at < bytes.length; at++) {
    digits[2 * at] = digit(bytes[at] >> 4);
    digits[2 * at + 1] = digit(bytes[at] & 15);
  }
  return digits;
}
