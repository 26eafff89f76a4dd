// Slips of a package that nothing else tells: words that mean a place and are none, places on no map, maps too small.

import { isMeant, placeOfNote } from "./notes.mjs";
import { numeral, phrase, plural } from "./tongue.mjs";
import { MICROMETRES, isOnMap } from "./typed.mjs";

/**
 * @typedef {{ srs_id: number, extent: number[] }} Map
 */

/**
 * The slip of a row: "none" where a word of its note begins with @ and is no place, "outside" where its place is on no
 * map; empty where there is none.
 * @param {string} note
 * @param {Map[]} maps
 * @param {number | null} only the system of all maps
 */
export function slipOf(note, maps, only) {
  const place = placeOfNote(note, only);
  if (!place) return isMeant(note) ? "none" : "";
  return maps.length === 0 || isOnMap(place, maps) ? "" : "outside";
}

/**
 * Whether a map is smaller than a metre, as one is whose metres were told as micrometres.
 * @param {Map} map
 */
export const isTiny = ({ extent: [left, low, right, high] }) => Math.min(right - left, high - low) < MICROMETRES;

/**
 * The slips of rows and maps in words, with how many there are of each; empty where there is none.
 * @param {{ note: string }[]} rows
 * @param {(Map & { identifier: string })[]} maps
 * @param {number | null} only
 */
export function wordsOfSlips(rows, maps, only) {
  const slips = rows.map(it => slipOf(it.note, maps, only));
  const count = (/** @type {string} */ of) => slips.filter(it => it === of).length;
  const none = count("none"), outside = count("outside");
  const tiny = maps.filter(isTiny).map(it => it.identifier).join(", ");
  const told = [none, outside].map(it => numeral(it.toLocaleString("en")));
  return [
    none && plural(none, "{0} row has a word with @ that is no place", "{0} rows have a word with @ that is no place",
      told[0]),
    outside && plural(outside, "{0} row has its place outside all maps", "{0} rows have their place outside all maps",
      told[1]),
    tiny && phrase("less than a metre wide or high: {0}", tiny),
  ].filter(it => it).join("; ");
}
