// Lines and areas of a row: what is drawn, and how it stands in the package, as GeoJSON (docs/FORMATS.md, section 12).

import { degreesOf } from "./degrees.mjs";
import { areaOf, crossesItself, isClockwise, lengthOf, numberTold } from "./plane.mjs";
import { placeInSystem } from "./systems.mjs";
import { numeral, phrase } from "./tongue.mjs";

/** How many corners a line or an area has at most. */
export const MOST_CORNERS = 2000;
const DIGITS_OF_DEGREES = 9;  // a tenth of a millimetre
const FARTHEST = 1e9;  // metres, as a package's coordinates have them

/**
 * @typedef {import("./plane.mjs").Point} Point
 * @typedef {import("./systems.mjs").System} System
 * @typedef {"line" | "area" | "track"} Kind
 * @typedef {{ kind: Kind, system: number | null, corners: Point[][] | null, degrees: Point[][] | null,
 *   seconds?: number | null }} Shape its parts, in metres of a system, and as longitudes and latitudes, as far as they
 *   are told; of an area the corners once, of a track how long it took
 */

/** @type {(one: Point, other: Point) => boolean} */
const isSamePoint = (one, other) => one[0] === other[0] && one[1] === other[1];

/**
 * The corners of what was drawn: of an area without the first once more.
 * @param {Kind} kind
 * @param {Point[]} points
 */
export const cornersDrawn = (kind, points) => kind === "area" && points.length > 1
  && isSamePoint(points[0], points[points.length - 1]) ? points.slice(0, -1) : points;

/** @type {(kind: Kind, corners: Point[]) => boolean} */
const hasEnough = (kind, corners) => corners.length >= (kind === "area" ? 3 : 2);

/**
 * Why points are no line or area yet, in words; empty where they are one.
 * @param {Kind} kind
 * @param {Point[]} points
 */
export function whyNoShape(kind, points) {
  const corners = cornersDrawn(kind, points);
  if (!hasEnough(kind, corners)) {
    return phrase(kind === "line" ? "A line has two corners at least." : "An area has three corners at least.");
  }
  if (kind === "line") return "";
  if (crossesItself(corners)) return phrase("The edge crosses itself: take corners back.");
  return areaOf(corners) > 0 ? "" : phrase("The corners enclose nothing.");
}

/** @type {(points: Point[]) => number} */
const around = points => points.length ? lengthOf([...points, points[0]]) : 0;

/**
 * What is said as a line or an area is drawn.
 * @param {Kind} kind
 * @param {Point[]} points
 */
export function wordsOfDrawing(kind, points) {
  const corners = cornersDrawn(kind, points), last = numberTold(lengthOf(corners.slice(-2))), isLine = kind === "line";
  if (corners.length === 0) {
    return phrase(isLine ? "Tap the corners of the line on the map." : "Tap the corners of the area on the map.");
  }
  if (corners.length === 1) return phrase("Tap the next corner.");
  if (isLine) {
    const long = numberTold(lengthOf(corners));
    return corners.length > 2 ? phrase("Line {0} m (last {1} m)", long, last) : phrase("Line {0} m", long);
  }
  if (corners.length === 2) return phrase("Side {0} m. Tap the next corner.", last);
  return crossesItself(corners) ? phrase("No area: it crosses itself")
    : phrase("Area {0} m², {1} m around (last {2} m)", numberTold(areaOf(corners)), numberTold(around(corners)), last);
}

/** @type {(degrees: number) => number} */
const roundedDegrees = degrees => Number(degrees.toFixed(DIGITS_OF_DEGREES));

/**
 * The degrees of corners; null where one of them can't be reckoned, or they lie on both sides of the 180th meridian.
 * @param {System | undefined} parameters
 * @param {Point[]} corners
 * @returns {Point[] | null}
 */
function degreesOfCorners(parameters, corners) {
  const told = corners.map(([east, north]) => parameters ? degreesOf(parameters, east, north) : null);
  const known = told.flatMap(it => it ? [/** @type {Point} */ ([it.longitude, it.latitude].map(roundedDegrees))] : []);
  const isApart = known.some(([longitude]) => Math.abs(longitude - known[0][0]) > 180);
  return known.length < corners.length || isApart ? null : known;
}

/**
 * A line or an area as GeoJSON: in degrees where they can be reckoned, else without a geometry; and its corners in the
 * map's system, which alone are exact.
 * @param {"line" | "area"} kind
 * @param {number} system
 * @param {Point[]} points
 * @param {System} [parameters] of the system, where the page can reckon it
 */
export function geoJsonOfShape(kind, system, points, parameters) {
  const corners = cornersDrawn(kind, points), degrees = degreesOfCorners(parameters, corners);
  const isRight = degrees && kind === "area" && isClockwise(degrees);
  const left = isRight ? [degrees[0], ...degrees.slice(1).reverse()] : degrees;
  const geometry = !left ? null : kind === "line" ? { type: "LineString", coordinates: left }
    : { type: "Polygon", coordinates: [[...left, left[0]]] };
  return `${JSON.stringify({ type: "Feature", geometry, properties: { kind, system, corners } })}\n`;
}

/** @type {(list: unknown, most: number) => list is Point[]} */
const arePoints = (list, most) => Array.isArray(list) && list.every(it => Array.isArray(it) && it.length >= 2
  && it.slice(0, 2).every(part => Number.isFinite(part) && Math.abs(part) <= most));

/**
 * A geometry's kind and its points in degrees; null where it is none that a row's line or area has.
 * @param {any} geometry
 * @returns {{ kind: "line" | "area", points: Point[] } | null}
 */
function pointsOfGeometry(geometry) {
  const isArea = geometry?.type === "Polygon" && geometry.coordinates?.length === 1;
  const told = isArea ? geometry.coordinates[0] : geometry?.type === "LineString" ? geometry.coordinates : null;
  if (!arePoints(told, 360)) return null;
  const points = told.map(([east, north]) => /** @type {Point} */ ([east, north]));
  return { kind: isArea ? "area" : "line", points: cornersDrawn(isArea ? "area" : "line", points) };
}

/**
 * The line or area of a text of GeoJSON: its corners in a system count, where it has some; null where it is none.
 * @param {string} text
 * @returns {Shape | null}
 */
export function shapeOfGeoJson(text) {
  let told = null;
  try {
    told = JSON.parse(text);
  } catch { /* then it is none */ }
  const { kind, system, corners } = told?.properties ?? {}, drawn = pointsOfGeometry(told?.geometry);
  if (told?.type !== "Feature") return null;
  const degrees = drawn ? [drawn.points] : null;
  if ((kind === "line" || kind === "area") && Number.isSafeInteger(system) && arePoints(corners, FARTHEST)) {
    const points = corners.map(([east, north]) => /** @type {Point} */ ([east, north]));
    return hasEnough(kind, points) ? { kind, system, corners: [points], degrees } : null;
  }
  return drawn && hasEnough(drawn.kind, drawn.points)
    ? { kind: drawn.kind, system: null, corners: null, degrees } : null;
}

/**
 * The parts of a shape in metres of a system; null where they can't be reckoned.
 * @param {Shape} shape
 * @param {number} system
 * @param {System} [parameters]
 * @returns {Point[][] | null}
 */
export function partsIn(shape, system, parameters) {
  if (shape.corners && shape.system === system) return shape.corners;
  const parts = (shape.degrees ?? []).map(part => part.flatMap(([longitude, latitude]) => {
    const place = placeInSystem(parameters, { longitude, latitude });
    return place ? [/** @type {Point} */ ([place.east, place.north])] : [];
  }));
  const isWhole = parts.length > 0 && parts.every((it, at) => it.length === shape.degrees?.[at].length);
  return isWhole ? parts : null;
}

/** @type {(seconds: number) => string} */
const timeTold = seconds => seconds < 120 ? `${Math.round(seconds)} s`
  : seconds < 7200 ? `${Math.round(seconds / 60)} min` : `${numeral((seconds / 3600).toFixed(1))} h`;

/**
 * What a shape is, with its length and its area, in words.
 * @param {Shape} shape
 * @param {Point[][] | null} parts in metres, where they are known
 */
export function wordsOfShape({ kind, seconds = null }, parts) {
  if (!parts) return phrase(kind === "line" ? "Line" : kind === "area" ? "Area" : "Track");
  if (kind === "area") {
    return phrase("Area, {0} m², {1} m around", numberTold(areaOf(parts[0])), numberTold(around(parts[0])));
  }
  const length = numberTold(parts.reduce((sum, it) => sum + lengthOf(it), 0));
  if (kind === "line") return phrase("Line, {0} m", length);
  return seconds === null ? phrase("Track, {0} m", length) : phrase("Track, {0} m in {1}", length, timeTold(seconds));
}
