// How a table's rows look on the map: a colour and a shape that no other has, so that who sees no colours tells them
// apart too; and those of rows that aren't in the package yet.

import { phrase, toSay } from "./tongue.mjs";

/**
 * A mark's look: the colour within, that of its edge, and its corners in parts of its size, none where it is round.
 * @typedef {{ fill: string, edge: string, corners: number[][] | null, name: string }} Style
 */

export const LIGHT = "#fff";
/** @type {(count: number, outer: number, inner: number) => number[][]} */
const starOf = (count, outer, inner) => Array.from({ length: 2 * count }, (_, at) => {
  const size = at % 2 ? inner : outer, turn = Math.PI * at / count;
  return [size * Math.sin(turn), -size * Math.cos(turn)];
});
// A square is of what waits, a triangle of what is refused; violet is the device, green of the sea what is measured.
/** @type {{ name: string, colour: string, corners: number[][] | null }[]} */
const SHAPES = [
  { name: toSay("blue, round"), colour: "#1d5fa8", corners: null },
  { name: toSay("green, a diamond"), colour: "#2a6b12", corners: [[0, -1.4], [1.4, 0], [0, 1.4], [-1.4, 0]] },
  { name: toSay("pink, a star"), colour: "#b5127c", corners: starOf(5, 1.6, 0.9) },
  { name: toSay("brown, a cross"), colour: "#6d4310", corners: [[-0.5, -1.3], [0.5, -1.3], [0.5, -0.5], [1.3, -0.5],
    [1.3, 0.5], [0.5, 0.5], [0.5, 1.3], [-0.5, 1.3], [-0.5, 0.5], [-1.3, 0.5], [-1.3, -0.5], [-0.5, -0.5]] },
  { name: toSay("grey, wide with two points"), colour: "#3d4850",
    corners: [[-1.6, 0], [-0.8, -0.9], [0.8, -0.9], [1.6, 0], [0.8, 0.9], [-0.8, 0.9]] },
  { name: toSay("blue-green, upright"), colour: "#00707a",
    corners: [[-0.7, -1.4], [0.7, -1.4], [0.7, 1.4], [-0.7, 1.4]] },
];

/**
 * The look of the rows of a table, by its place among the tables: the first have a light edge, and as many behind them
 * are light with an edge of their colour.
 * @param {number} at
 * @returns {Style}
 */
export function styleOfTable(at) {
  const { name, colour, corners } = SHAPES[at % SHAPES.length], isHollow = at % (2 * SHAPES.length) >= SHAPES.length;
  return isHollow ? { fill: LIGHT, edge: colour, corners, name: phrase("{0}, hollow", phrase(name)) }
    : { fill: colour, edge: LIGHT, corners, name: phrase(name) };
}

const TRIANGLE = [[0, -1.4], [1.4, 1], [-1.4, 1]];
/**
 * By what a row waits for, its look, whatever its table is.
 * @type {Record<string, Style>}
 */
export const STYLES_OF_WAITING = {
  waits: { fill: "#b35c00", edge: LIGHT, corners: [[-1, -1], [1, -1], [1, 1], [-1, 1]],
    name: toSay("orange, a square") },
  refused: { fill: "#a4161a", edge: LIGHT, corners: TRIANGLE, name: toSay("red, a triangle") },
  changed: { fill: "#a4161a", edge: LIGHT, corners: TRIANGLE, name: toSay("red, a triangle") },
};

/**
 * The look of a mark that stands for several rows.
 * @type {Style}
 */
export const STYLE_OF_GROUP = { fill: "#1c2630", edge: LIGHT, corners: null,
  name: toSay("dark, round, with a number") };

/**
 * The colour of a sign within a mark, which stands out from it.
 * @param {Style} style
 */
export const inkOf = ({ fill, edge }) => fill === LIGHT ? edge : LIGHT;

/** What marks may tell beside their table: nothing, a kind, or a class. */
export const TELLS = ["", "word", "amount"];

/**
 * What was chosen of the tables on the map, as a browser kept it: those that are off it, and what marks tell. All are
 * on it where nothing was.
 * @param {string | null} kept
 * @returns {{ off: string[], tells: string }}
 */
export function choiceKept(kept) {
  let told = null;
  try {
    told = JSON.parse(kept ?? "null");
  } catch { /* another program's */ }
  const off = Array.isArray(told?.off) ? told.off.filter((/** @type {any} */ it) => typeof it === "string") : [];
  return { off, tells: TELLS.includes(told?.tells) ? told.tells : "" };
}
