// Lengths, areas and offsets in the plane of a map, in metres.

import { numeral, phrase, toSay } from "./tongue.mjs";

/**
 * @typedef {[number, number]} Point east and north
 */

export const NEAR = 1;  // metres within which a place that is staked out is reached
const [EAST, WEST, NORTH, SOUTH] = toSay(["{0} m east", "{0} m west", "{0} m north", "{0} m south"]);
const [UP, DOWN] = toSay(["{0} m up", "{0} m down"]);
const [UP_WITHIN, DOWN_WITHIN] = toSay(["{0} m up (within {1} m)", "{0} m down (within {1} m)"]);

/**
 * The length of a way through points.
 * @param {Point[]} points
 */
export const lengthOf = points =>
  points.slice(1).reduce((sum, [east, north], at) => sum + Math.hypot(east - points[at][0], north - points[at][1]), 0);

/**
 * Twice the area that points enclose, the last joined to the first; negative where they go round as a clock does. It is
 * reckoned from the first, so that large coordinates cost no digits.
 * @param {Point[]} points
 */
function twiceAreaOf(points) {
  const near = points.map(([east, north]) => [east - points[0][0], north - points[0][1]]);
  return near.reduce((sum, [east, north], at) => {
    const [nextEast, nextNorth] = near[(at + 1) % near.length];
    return sum + east * nextNorth - nextEast * north;
  }, 0);
}

/**
 * The area that points enclose, the last joined to the first.
 * @param {Point[]} points
 */
export const areaOf = points => Math.abs(twiceAreaOf(points)) / 2;

/**
 * Whether points go round as a clock does.
 * @param {Point[]} points
 */
export const isClockwise = points => twiceAreaOf(points) < 0;

/**
 * The place that is the nearest to a point, of those within a reach; null where there is none.
 * @param {Point} point
 * @param {Point[]} places
 * @param {number} reach in metres
 */
export function nearestWithin([east, north], places, reach) {
  /** @type {{ place: Point | null, far: number }} */
  const none = { place: null, far: reach };
  return places.reduce((nearest, place) => {
    const far = Math.hypot(place[0] - east, place[1] - north);
    return far < nearest.far || far === nearest.far && !nearest.place ? { place, far } : nearest;
  }, none).place;
}

/**
 * On which side of the line from a point to another a third one is, by a sign.
 * @type {(from: Point, to: Point, it: Point) => number}
 */
const sideOf = (from, to, it) =>
  Math.sign((to[0] - from[0]) * (it[1] - from[1]) - (to[1] - from[1]) * (it[0] - from[0]));

/**
 * Whether the edge of what points enclose crosses itself: then it has no area.
 * @param {Point[]} points
 */
export function crossesItself(points) {
  const edges = points.map((it, at) => [it, points[(at + 1) % points.length]]);
  return edges.some(([a, b], one) => edges.slice(one + 2).some(([c, d], more) =>
    (one > 0 || one + 2 + more < edges.length - 1)
    && sideOf(a, b, c) * sideOf(a, b, d) < 0 && sideOf(c, d, a) * sideOf(c, d, b) < 0));
}

/**
 * A number with as many decimals as its size is worth: two up to a hundred, none from ten thousand on.
 * @param {number} value
 */
export function numberTold(value) {
  const digits = value < 99.995 ? 2 : value < 9999.95 ? 1 : 0;
  return numeral(value.toLocaleString("en", { minimumFractionDigits: digits, maximumFractionDigits: digits }));
}

/**
 * What points that were tapped measure, in words.
 * @param {Point[]} points
 */
export function wordsOfMeasure(points) {
  if (points.length === 0) return phrase("Tap the points of a way on the map.");
  if (points.length === 1) return phrase("Tap the next point.");
  const way = numberTold(lengthOf(points)), last = numberTold(lengthOf(points.slice(-2)));
  if (points.length === 2) return phrase("Way {0} m", way);
  if (crossesItself(points)) return phrase("Way {0} m (last {1} m), no area: it crosses itself", way, last);
  return phrase("Way {0} m (last {1} m), area {2} m²", way, last, numberTold(areaOf(points)));
}

/**
 * An offset in words: how far east or west, north or south, and up or down, where heights are known.
 * @param {number} east
 * @param {number} north
 * @param {{ up: number, within?: number | null } | null} [height] how much higher it is, and how well that is known
 */
export function wordsOfOffset(east, north, height = null) {
  /** @type {(metres: number, more: string, less: string) => string} */
  const part = (metres, more, less) =>
    phrase(metres > -0.005 ? more : less, numberTold(Math.abs(metres)), Math.ceil(height?.within ?? 0));
  const up = !height ? [] : [height.within ? part(height.up, UP_WITHIN, DOWN_WITHIN) : part(height.up, UP, DOWN)];
  return [part(east, EAST, WEST), part(north, NORTH, SOUTH), ...up].join(", ");
}
