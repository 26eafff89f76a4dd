// What people type: words that are searched for, and places.

import { placeOfNote } from "./notes.mjs";
import { phrase } from "./tongue.mjs";

/**
 * @typedef {import("./notes.mjs").Place} Place
 * @typedef {{ srs_id: number, extent: number[] }} Map
 */

/** In a metre: the package's lengths are whole micrometres. */
export const MICROMETRES = 1e6;

/**
 * A text as it is searched: without capitals, and without marks on letters, however they were typed.
 * @param {string} text
 */
export const folded = text => text.normalize("NFD").replace(/\p{M}/gu, "").toLowerCase();

/**
 * Easting and northing of a text; null where it tells none. A decimal comma is one, and a zone in front is left out.
 * @param {string} text
 * @returns {[number, number] | null}
 */
export function placeTold(text) {
  const words = text.replace(/[^\d.,;/\s-]/g, " ").trim().split(/[\s;/]+/);
  const parts = (words.length === 1 ? text.split(",") : words).map(it => it.trim().replace(/^,|,$/g, ""));
  const numbers = parts.filter(it => it).map(it => /^-?\d+([.,]\d+)?$/.test(it) ? Number(it.replace(",", ".")) : NaN);
  const isZone = numbers.length === 3 && Number.isInteger(numbers[0]) && numbers[0] >= 1 && numbers[0] <= 60;
  const [east, north, ...more] = isZone ? numbers.slice(1) : numbers;
  return more.length === 0 && Number.isFinite(east) && Number.isFinite(north) ? [east, north] : null;
}

/**
 * Whether a place is on a map of its system.
 * @param {Place} place
 * @param {Map[]} maps
 */
export const isOnMap = ({ system, east, north }, maps) => maps.some(({ srs_id, extent: [left, low, right, high] }) => {
  const [x, y] = [Number(east) * MICROMETRES, Number(north) * MICROMETRES];
  return srs_id === system && x >= left && x <= right && y >= low && y <= high;
});

/**
 * What is odd about a place that is saved, in words; empty where nothing is. A slip of a digit is a stone in the sea.
 * @param {Place | null | undefined} place as the form's fields have it
 * @param {string} note as it was typed
 * @param {Map[]} maps
 * @param {number | null} only the system of all maps
 */
export function doubtOf(place, note, maps, only) {
  const of = maps.filter(it => it.srs_id === place?.system);
  if (place && of.length > 0 && !isOnMap(place, of)) return phrase("This place is outside all maps");
  const word = place ? null : placeOfNote(note, only);
  return word ? phrase("The note tells a place: east {0}, north {1}", word.east, word.north) : "";
}
