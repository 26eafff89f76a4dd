// Maps that lie behind the work, as far as that is reckoned: where they are drawn, their order and looks, which parts
// of them are asked for, and which of their names have room. They are no part of the package.

import { phrase } from "./tongue.mjs";
import { MICROMETRES } from "./typed.mjs";

/** The side of a part in pixels. */
export const PART = 256;
// A pixel of shapes where no picture tells a finer one, and the zooms of a map that lies over maps alone.
const FINE = 0.1, MOST_ZOOM = 22;
// The room that a name wants: a letter's width, a line's height, and what stands free around it, in pixels.
const LETTER = 7, HIGH = 20, FREE = 8;
/** How weak a map may be made, in percent. */
export const WEAKEST = 10;

/**
 * A box in metres: west, south, east and north.
 * @typedef {[number, number, number, number]} Box
 * @typedef {{ number: number, name: string, kind: string, why?: string, bounds?: Box | null, finest?: number,
 *   coarsest?: number, columns?: string[] }} Lying a map as its server lists it
 * @typedef {{ name: string, on: boolean, strength: number, column: string }} Look how a map is shown
 */

/**
 * What the page's address tells behind its '#': the package's file, and the address at which its maps are drawn.
 * @param {string} fragment
 */
export function toldByAddress(fragment) {
  const [name, ...words] = fragment.split("&");
  const found = words.map(it => /^maps=(\d{2,5})\/([\w-]{16,64})$/.exec(it)).find(it => it);
  return { file: plainText(name), maps: found ? `http://127.0.0.1:${found[1]}/${found[2]}/` : null };
}

/** @param {string} text */
function plainText(text) {
  try {
    return decodeURIComponent(text);
  } catch {
    return text;
  }
}

/**
 * The policy of a page that asks its own address alone, and the one at which its maps are drawn.
 * @param {string | null} maps
 */
export const policyFor = maps => `connect-src 'self'${maps ? ` ${maps}` : ""}`;

/**
 * Whether an answer is a list of maps.
 * @param {any} told
 */
export const isMaps = told => Array.isArray(told?.maps) && told.maps.every(isLying)
  && (told.system === null || Number.isInteger(told.system));

/** @param {any} it */
function isLying(it) {
  const isBox = it?.bounds === null || Array.isArray(it?.bounds) && it.bounds.length === 4
    && it.bounds.every(Number.isFinite);
  if (!it || typeof it.name !== "string" || !Number.isInteger(it.number)) return false;
  if (it.kind === "none") return typeof it.why === "string";
  if (it.kind === "picture") return isBox && it.finest > 0 && it.coarsest > 0;
  return it.kind === "shapes" && isBox && Array.isArray(it.columns)
    && it.columns.every((/** @type {any} */ column) => typeof column === "string");
}

/**
 * Maps in the order in which they lie, the first on top, each with its look. Those that nobody has ordered yet come
 * behind the others.
 * @param {Lying[]} maps
 * @param {Look[]} looks what was chosen before
 * @returns {{ map: Lying, look: Look }[]}
 */
export function inOrder(maps, looks) {
  const left = looks.map((look, at) => ({ look, at }));
  const placed = maps.map(map => {
    const found = left.findIndex(it => it.look?.name === map.name), [it] = found < 0 ? [] : left.splice(found, 1);
    return { map, look: lookOf(map.name, it?.look, map.columns), at: it ? it.at : looks.length + map.number };
  });
  return placed.sort((one, other) => one.at - other.at).map(({ map, look }) => ({ map, look }));
}

/**
 * The look of a map, by what was chosen before: shown as it is, without names, where nothing was.
 * @param {string} name
 * @param {any} [before]
 * @param {string[]} [columns]
 * @returns {Look}
 */
export function lookOf(name, before, columns = []) {
  const strength = Number(before?.strength), isStrength = strength >= WEAKEST && strength <= 100;
  const column = columns.find(it => it === before?.column) ?? "";
  return { name, on: before?.on !== false, strength: isStrength ? strength : 100, column };
}

/**
 * A list whose item at a place has moved by one, up (-1) or down (1), as far as it goes.
 * @template Item
 * @param {Item[]} list
 * @param {number} at
 * @param {number} by
 */
export function movedInList(list, at, by) {
  const to = Math.min(Math.max(at + by, 0), list.length - 1), rest = list.filter((_, it) => it !== at);
  return [...rest.slice(0, to), list[at], ...rest.slice(to)];
}

/**
 * Whether two boxes have a place in common.
 * @param {Box} one
 * @param {Box} other
 */
export const meet = (one, other) => one[0] < other[2] && one[2] > other[0] && one[1] < other[3] && one[3] > other[1];

/**
 * The box of a part of the grid whose upper left corner is that of a map.
 * @param {number[]} extent the map's, in metres
 * @param {number} pixel metres
 * @param {{ x: number, y: number }} place
 * @returns {Box}
 */
export function boxOfPart([west, , , north], pixel, { x, y }) {
  const side = PART * pixel;
  return [west + x * side, north - (y + 1) * side, west + (x + 1) * side, north - y * side];
}

/**
 * Whether a picture has something to show in a part.
 * @param {Lying} picture
 * @param {number} pixel
 * @param {Box} box
 */
export const hasPart = ({ bounds, coarsest }, pixel, box) => Boolean(bounds) && meet(/** @type {Box} */ (bounds), box)
  && pixel <= (coarsest ?? 0);

/**
 * What is to be said of a map: why it can't be opened, or why nothing of it is seen; empty where nothing is.
 * @param {Lying} map
 * @param {number} pixel
 * @param {Box} sight
 */
export function wordsOfMap({ kind, why, bounds, coarsest }, pixel, sight) {
  if (kind === "none") return phrase("can't be shown: {0}", why);
  if (!bounds) return phrase("has nothing in it");
  if (!meet(bounds, sight)) return phrase("lies elsewhere");
  return pixel > (coarsest ?? Infinity) ? phrase("is seen from nearer on") : "";
}

/**
 * A box that is larger at each side by a part of its own.
 * @param {Box} box
 * @param {number} part
 * @returns {Box}
 */
export function padded([west, south, east, north], part) {
  const wide = part * (east - west), high = part * (north - south);
  return [west - wide, south - high, east + wide, north + high];
}

/**
 * Whether a box lies in another.
 * @param {Box} inner
 * @param {Box} outer
 */
export const isIn = (inner, outer) => inner[0] >= outer[0] && inner[1] >= outer[1] && inner[2] <= outer[2]
  && inner[3] <= outer[3];

/**
 * The names that have room on the screen: each wants a box around its place, and the first that come have it.
 * @template {{ text: string, x: number, y: number }} Name
 * @param {Name[]} names
 * @param {number} most
 */
export function withRoom(names, most) {
  const found = /** @type {Name[]} */ ([]), taken = /** @type {Box[]} */ ([]);
  for (const it of names) {
    const wide = it.text.length * LETTER / 2 + FREE, high = HIGH / 2;
    const box = /** @type {Box} */ ([it.x - wide, it.y - high, it.x + wide, it.y + high]);
    if (found.length >= most || taken.some(other => meet(box, other))) continue;
    found.push(it);
    taken.push(box);
  }
  return found;
}

/**
 * A map without tiles over maps that lie behind the work, for a package that has none: as /contents and item 4 tell of
 * a pyramid, in micrometres. Its zooms halve from all of them on down to the finest pixel. Null where none is anywhere.
 * @param {Lying[]} maps
 * @param {number} system
 */
export function laidOver(maps, system) {
  const boxes = maps.flatMap(it => it.bounds ? [it.bounds] : []);
  if (boxes.length === 0) return null;
  const side = (/** @type {number} */ at, /** @type {(...all: number[]) => number} */ of) =>
    of(...boxes.map(it => it[at]));
  const [west, south, east, north] = [side(0, Math.min), side(1, Math.min), side(2, Math.max), side(3, Math.max)];
  const finest = Math.min(FINE, ...maps.map(it => it.finest ?? FINE));
  const pixel = Math.max(1000, Math.round(finest * MICROMETRES)), wide = Math.max(east - west, north - south);
  const last = Math.min(Math.max(0, Math.ceil(Math.log2(wide * MICROMETRES / (PART * pixel)))), MOST_ZOOM);
  const matrices = Array.from({ length: last + 1 }, (_, zoom) => ({ zoom_level: zoom, matrix_width: 2 ** zoom,
    matrix_height: 2 ** zoom, tile_width: PART, tile_height: PART, pixel_x_size: pixel * 2 ** (last - zoom),
    pixel_y_size: pixel * 2 ** (last - zoom) }));
  const [left, top] = [Math.floor(west) * MICROMETRES, Math.ceil(north) * MICROMETRES];
  const whole = PART * pixel * 2 ** last;
  const bounds = [west, south, east, north].map(it => Math.round(it * MICROMETRES));
  const content = { table: "", identifier: phrase("Maps behind the work"), srs_id: system };
  return { content: { ...content, extent: [left, top - whole, left + whole, top] }, known: { matrices, bounds } };
}
