// Which marks a map has of many places: each its own, the smaller the more there are, and where that would hide the map
// those of one square of a grid as one mark with their number.

// How large a mark is at most and at least, in pixels, and the part of the map that those in sight may cover.
const LARGE = 8, SMALL = 3, COVERED = 0.1;
// The side of a square in pixels, how many places it may have that are still drawn one by one, and about how many marks
// a map has at most.
const SQUARE = 64, FEW = 10, MOST_MARKS = 2000;

/**
 * @typedef {{ east: number, north: number, alone?: boolean }} Point one that is alone is in no group
 * @typedef {{ west: number, south: number, east: number, north: number, pixel: number }} Sight the box that is seen,
 *   and the side of a pixel, in metres
 */

/** @type {(it: Point, sight: Sight) => boolean} */
const isSeen = ({ east, north }, sight) => east >= sight.west && east <= sight.east && north >= sight.south
  && north <= sight.north;

/**
 * A box that is larger, up to the grid's next lines: so the members of a square that is seen in part are all known, and
 * it says the same wherever the map is moved.
 * @param {Sight} sight
 * @param {number} side of a square, in metres
 * @returns {Sight}
 */
const toTheGrid = ({ west, south, east, north, pixel }, side) => ({ west: Math.floor(west / side) * side,
  south: Math.floor(south / side) * side, east: Math.ceil(east / side) * side, north: Math.ceil(north / side) * side,
  pixel });

/**
 * How large marks are, in pixels, where so many are seen on so many pixels.
 * @param {number} count
 * @param {number} area
 */
export const sizeOfMarks = (count, area) =>
  Math.max(SMALL, Math.min(LARGE, Math.round(Math.sqrt(COVERED * area / Math.max(count, 1) / Math.PI))));

/**
 * What is drawn of places: those that have marks of their own, how large these are, those of them that are seen, and
 * groups of the others at their members' middle. What is near the sight is drawn too, since the map is dragged.
 * @template {Point} Item
 * @param {Item[]} all
 * @param {Sight} sight
 * @param {boolean} mayGroup
 */
export function drawnOf(all, sight, mayGroup) {
  const side = SQUARE * sight.pixel, wide = toTheGrid(sight, side), near = all.filter(it => isSeen(it, wide));
  const area = (sight.east - sight.west) * (sight.north - sight.south) / sight.pixel ** 2;
  const seen = near.filter(it => isSeen(it, sight)), same = sizeOfMarks(seen.length, area);
  const isFull = seen.length > MOST_MARKS || seen.length * Math.PI * SMALL ** 2 > COVERED * area;
  const none = /** @type {Group<Item>[]} */ ([]);
  if (!mayGroup || !isFull) return { sizeOf: () => same, marks: near, seen, groups: none };
  const few = Math.max(1, Math.min(FEW, Math.floor(MOST_MARKS * SQUARE ** 2 / area)));
  const { marks, groups } = inSquares(near, side, few);
  const large = sizeOfMarks(seen.filter(it => it.alone).length, area);
  const sizeOf = (/** @type {Item} */ it) => it.alone ? large : same;
  return { sizeOf, marks, seen: marks.filter(it => isSeen(it, sight)), groups };
}

/**
 * @template {Point} Item
 * @typedef {{ square: string, east: number, north: number, items: Item[] }} Group
 */

/**
 * Places by the squares of the grid: those of squares that have few, and groups of the others.
 * @template {Point} Item
 * @param {Item[]} all
 * @param {number} side
 * @param {number} few
 * @returns {{ marks: Item[], groups: Group<Item>[] }}
 */
function inSquares(all, side, few) {
  const squares = /** @type {Map<string, Item[]>} */ (new Map()), marks = all.filter(it => it.alone);
  for (const it of all) {
    if (it.alone) continue;
    const square = `${Math.floor(it.east / side)}/${Math.floor(it.north / side)}`, there = squares.get(square);
    if (there) there.push(it); else squares.set(square, [it]);
  }
  const groups = [];
  for (const [square, items] of squares) {
    const middle = (/** @type {"east" | "north"} */ of) => items.reduce((sum, it) => sum + it[of], 0) / items.length;
    if (items.length <= few) marks.push(...items);
    else groups.push({ square, east: middle("east"), north: middle("north"), items });
  }
  return { marks, groups };
}

/**
 * A number that has room in a mark.
 * @param {number} count
 */
export const shortly = count => count < 1000 ? String(count)
  : count < 9950 ? `${(Math.floor(count / 100) / 10).toFixed(1)}k` : `${Math.floor(count / 1000)}k`;

/**
 * The box around places, in metres: west, south, east and north.
 * @param {Point[]} all
 * @returns {[number, number, number, number]}
 */
export function boxOf(all) {
  const [east, north] = [all.map(it => it.east), all.map(it => it.north)];
  const least = (/** @type {number[]} */ of) => of.reduce((one, it) => Math.min(one, it));
  const most = (/** @type {number[]} */ of) => of.reduce((one, it) => Math.max(one, it));
  return [least(east), least(north), most(east), most(north)];
}
