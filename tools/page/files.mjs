// Rows as the text of a file: a table (CSV), GeoJSON, or waypoints (GPX).

import { degreesOf } from "./degrees.mjs";
import { placeOfNote, wordOf } from "./notes.mjs";
import { columnsIn, freeNames, heightIn, columnOrder, typeOf } from "./notewords.mjs";
import { toSay } from "./tongue.mjs";

/**
 * @typedef {import("./changes.mjs").Row & { waits?: string }} Listed
 * @typedef {import("./systems.mjs").System} System
 * @typedef {{ row: Listed, state: string, place: import("./notes.mjs").Place | null, rest: string,
 *   degrees: { longitude: number, latitude: number } | null, words: Map<string, string> }} Told
 * @typedef {{ name: string, column: string, type: "INTEGER" | "REAL" | "TEXT" }} Column
 * @typedef {{ table: string, identifier: string, when: string, rows: Told[], columns: Column[],
 *   beyond: string[] }} Listing
 * @typedef {{ longitude: number, latitude: number }} Degrees
 */

// By what a row waits for, whether the package has it, in the words of docs/PAGE.md: files have them in English.
/** @type {Record<string, string>} */
const STATES = toSay({ waits: "to send", refused: "refused", changed: "changed meanwhile" });
const IN_PACKAGE = toSay("in the package");
const FIXED = ["id", "title", "note", "amount", "state", "system", "east", "north", "longitude", "latitude"];
const GEOMETRY = "geom";  // a column of a layer of points that the office exports
const DIGITS = 9;         // of degrees: a tenth of a millimetre

/**
 * @param {Listed} row
 */
export const stateOf = ({ waits }) => STATES[waits ?? ""] ?? IN_PACKAGE;

/**
 * What rows tell: places, degrees where those can be reckoned, and the words of their notes, which have columns in the
 * order of the rows' numbers, as in the office's export.
 * @param {{ table: string, identifier: string, when: string }} of
 * @param {Listed[]} list
 * @param {number | null} only the system of all maps
 * @param {Record<string, System>} systems those that the page can reckon, by their numbers
 * @param {{ found: Map<string, Degrees>, words: string[] }} [beyond] by their words, places that were brought over
 *   from other systems, and what is to be said of these
 * @returns {Listing}
 */
export function listingOf(of, list, only, systems, beyond = { found: new Map(), words: [] }) {
  const rows = list.map(row => {
    const place = placeOfNote(row.note, only), system = place && systems[place.system];
    const degrees = place && system ? degreesOf(system, Number(place.east), Number(place.north))
      : beyond.found.get(wordOf(place)) ?? null;
    return { row, state: stateOf(row), place, degrees, ...columnsIn(place ? place.rest : row.note) };
  });
  /** @type {Map<string, string[]>} */
  const values = new Map();
  for (const { words } of [...rows].sort((one, other) => one.row.id - other.row.id)) {
    for (const [name, value] of words) {
      const them = values.get(name) ?? [];
      values.set(name, them);
      them.push(value);
    }
  }
  const names = columnOrder([...values.keys()]), free = freeNames(names, [...FIXED, GEOMETRY]);
  const columns = names.map(name => ({ name, column: free.get(name) ?? name, type: typeOf(values.get(name) ?? []) }));
  return { ...of, rows, columns, beyond: beyond.words };
}

/** @type {(rows: Told[]) => string} */
const numberOf = rows => `${rows.length} ${rows.length === 1 ? "row" : "rows"}`;

/** @type {(row: Listed) => string} */
const titleOf = ({ id, title }) => title || `(no title) ${id}`;

/**
 * What a reader of the file has to know, in sentences. Of the kind "gpx" only rows with degrees are in the file.
 * @param {Listing} listing
 * @param {string} kind
 */
export function wordsOfListing({ table, identifier, when, rows, beyond }, kind) {
  const waiting = rows.filter(it => it.state !== IN_PACKAGE), bare = rows.filter(it => !it.place);
  const places = rows.flatMap(({ row, place, degrees }) => place && !degrees
    ? [`${titleOf(row)} at east ${place.east}, north ${place.north} of system ${place.system}`] : []);
  const isOut = kind === "gpx" ? "is left out" : "has no geometry";
  const words = [`${numberOf(rows)} of ${identifier === table ? table : `${identifier} (${table})`}, listed ${when}.`];
  if (waiting.length) words.push(`Not in the package yet: ${numberOf(waiting)}, whose state says why.`);
  words.push("Longitude and latitude are of WGS 84, for which ETRS89 is taken: less than a metre.", ...beyond);
  if (bare.length) words.push(`What has no place ${isOut}: ${numberOf(bare)}.`);
  if (places.length) {
    words.push(`What has a place that the page can't tell in degrees ${isOut}; in metres: ${places.join("; ")}.`);
  }
  return words.join(" ");
}

const PLAIN_NUMBER = /^-?\d+(\.\d+)?$/;
// What may stand between the beginning of a cell and what a spreadsheet takes for a formula, for who parts cells by
// commas, semicolons or tabs.
const BEFORE_FORMULA = /(?<![\s";])[\s";]*(?=[=+\-@\uff1d\uff0b\uff0d\uff20])/g;

/**
 * A text that no spreadsheet runs as a formula: it has an apostrophe where one would begin. Numbers stay.
 * @param {string} text
 */
export const harmless = text => PLAIN_NUMBER.test(text) ? text : text.replace(
  BEFORE_FORMULA, (before, at) => at === 0 || /[;\t\r\n]/.test(before) ? `${before}'` : before);

/**
 * @param {string | number | null | undefined} value
 */
function cellOf(value) {
  const text = harmless(String(value ?? ""));
  return /[",;\t\r\n]|^\s|\s$/.test(text) ? `"${text.replaceAll('"', '""')}"` : text;
}

/** @type {(degrees: { longitude: number, latitude: number }) => [string, string]} */
const pointTold = ({ longitude, latitude }) => [longitude.toFixed(DIGITS), latitude.toFixed(DIGITS)];

/**
 * A table with a column for each word of the notes; its first character tells spreadsheets that it is UTF-8.
 * @param {Listing} listing
 */
export function csvOf({ rows, columns }) {
  const lines = rows.map(({ row, state, place, degrees, words, rest }) => [
    row.id, row.title, rest, row.amount, state, place?.system, place?.east, place?.north,
    ...degrees ? pointTold(degrees) : ["", ""], ...columns.map(it => words.get(it.name)),
  ]);
  const head = [...FIXED, ...columns.map(it => it.column)];
  return `\ufeff${[head, ...lines].map(it => `${it.map(cellOf).join()}\r\n`).join("")}`;
}

/**
 * Features with a point each, where the page knows its degrees, and the columns of the table as properties.
 * @param {Listing} listing
 */
export function geoJsonOf(listing) {
  const features = listing.rows.map(({ row: { id, title, amount }, state, place, degrees, words, rest }) => {
    const [east, north] = place ? [Number(place.east), Number(place.north)] : [null, null];
    const fixed = { id, title, note: rest, amount, state, system: place ? place.system : null, east, north };
    // A number keeps its letters: it may have more digits than this script's numbers.
    const more = listing.columns.map(({ name, column, type }) => {
      const value = words.get(name);
      return [column, value === undefined ? "null" : type === "TEXT" ? JSON.stringify(value) : value];
    });
    const all = [...Object.entries(fixed).map(([name, value]) => [name, JSON.stringify(value)]), ...more];
    const properties = all.map(([name, value]) => `${JSON.stringify(name)}:${value}`).join();
    const geometry = degrees ? `{"type":"Point","coordinates":[${pointTold(degrees)}]}` : "null";
    return `{"type":"Feature","id":${id},"geometry":${geometry},"properties":{${properties}}}`;
  });
  const description = JSON.stringify(wordsOfListing(listing, "geojson"));
  const head = `"type":"FeatureCollection","name":${JSON.stringify(listing.table)},"description":${description}`;
  return `{${head},"features":[\n${features.join(",\n")}\n]}\n`;
}

// eslint-disable-next-line no-control-regex
const NOT_IN_XML = /[\0-\x08\v\f\x0e-\x1f\ufffe\uffff]/g;

/**
 * A text as XML has it; in place of characters that XML has no place for stands that for what can't be told.
 * @param {string} text
 */
const xmlOf = text => text.replace(NOT_IN_XML, "\ufffd").replace(/[&<>"]/g, it => `&#${it.charCodeAt(0)};`);

/**
 * A waypoint with a name, a note, and how its row stands; with a height where the note has a word h=.
 * @param {Told} told
 */
function waypoint({ row, state, degrees, words, rest }) {
  if (!degrees) return [];
  const [longitude, latitude] = pointTold(degrees), height = heightIn(row.note);
  const lines = [rest, row.amount ? `amount: ${row.amount}` : "", ...[...words].map(it => it.join(": "))];
  const about = lines.filter(it => it).join("\n");
  const parts = [height === null ? "" : `<ele>${height}</ele>`, `<name>${xmlOf(titleOf(row))}</name>`,
    `<cmt>${xmlOf(state)}</cmt>`, about && `<desc>${xmlOf(about)}</desc>`];
  return [`<wpt lat="${latitude}" lon="${longitude}">${parts.join("")}</wpt>\n`];
}

/**
 * The rows whose degrees the page knows as waypoints; the file's description names the others.
 * @param {Listing} listing
 */
export function gpxOf(listing) {
  const name = `<name>${xmlOf(listing.identifier)}</name>`;
  const words = `<desc>${xmlOf(wordsOfListing(listing, "gpx"))}</desc>`;
  return '<?xml version="1.0" encoding="UTF-8"?>\n<gpx version="1.1" creator="mmpkg" ' +
    `xmlns="http://www.topografix.com/GPX/1/1">\n<metadata>${name}${words}<time>${xmlOf(listing.when)}</time>` +
    `</metadata>\n${listing.rows.flatMap(waypoint).join("")}</gpx>\n`;
}
