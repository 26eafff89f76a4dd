// Places in systems that the page can't reckon: what the program of maps is asked, which brings them over by PROJ, and
// what its answers are worth.

import { english, phrase, toSay } from "./tongue.mjs";

/** How many places are brought over at once. */
export const MOST_BROUGHT = 2000;
const GOOD = 1;  // metres within which a system's places are as good as those that the page reckons
const DEGREES_OF = toSay("Degrees of system {0} are PROJ's, by \"{1}\", good for {2} m.");

/**
 * How PROJ is asked for a system: by its number at EPSG, or by its WKT.
 * @typedef {{ epsg?: number, definition?: string }} Beyond
 * @typedef {{ places: ([number, number] | null)[], worth: number | null, name: string }} Brought
 */

/**
 * What is asked: places in degrees, longitude first, that come as metres of a system, or back.
 * @param {Beyond} system
 * @param {[number, number][]} places
 * @param {boolean} [back]
 */
export const questionOf = (system, places, back = false) => JSON.stringify({ ...system, back, places });

/** @type {(it: unknown) => boolean} */
const isPair = it => it === null || Array.isArray(it) && it.length === 2 && it.every(Number.isFinite);

/**
 * Whether an answer is one to so many places.
 * @param {any} told
 * @param {number} count
 */
export const isBrought = (told, count) => Array.isArray(told?.places) && told.places.length === count
  && told.places.every(isPair) && typeof told.name === "string"
  && (told.worth === null ? told.places.every((/** @type {any} */ it) => it === null) : told.worth >= 0);

/**
 * Within how many metres a place is in a system, by how exact it is and what its way there is worth; null where the
 * first isn't told.
 * @param {number | null} accuracy
 * @param {number} worth
 */
export const withinBoth = (accuracy, worth) => accuracy === null ? null : Math.max(accuracy, worth);

/**
 * What is said of a system in which places are good for more than a metre only; empty where they are.
 * @param {number} worth
 */
export const wordsOfWorth = worth => worth <= GOOD ? ""
  : phrase("Places of this map's system are good for {0} m only.", worth);

/**
 * Why a place isn't brought over, in words.
 * @param {Brought} brought
 */
export const whyNotBrought = ({ name }) => name
  ? phrase("How exact places are in this map's system here nobody knows: PROJ brings them there by \"{0}\".", name)
  : phrase("PROJ brings no place from here into this map's system.");

/**
 * What is said of degrees that were brought over from a system: in English, as a file says it, or in the crew's
 * language.
 * @param {number} system
 * @param {Brought} brought
 * @param {typeof english} [say]
 */
export const wordsOfDegrees = (system, { worth, name }, say = english) => worth === null ? []
  : [say(DEGREES_OF, system, name, worth)];

/**
 * Lists of at most so many of a list.
 * @template Item
 * @param {Item[]} list
 * @param {number} most
 * @returns {Item[][]}
 */
export const inParts = (list, most) =>
  Array.from({ length: Math.ceil(list.length / most) }, (_, at) => list.slice(at * most, (at + 1) * most));
