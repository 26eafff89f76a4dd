// Tracks of a row: what is kept of where a crew walks, and how it stands in the package, as GPX 1.1.

import { shapeOfGeoJson } from "./lines.mjs";
import { GPX } from "./media.mjs";
import { LEAST_CLOCK, MOST_CLOCK } from "./notes.mjs";

/** How many places a track has at most: about 3 MiB of GPX. */
export const MOST_PLACES = 30000;
/** How many metres a place may be off that is taken. */
export const MOST_OFF = 30;
const LEAST_STEP = 2, MOST_STEP = 10;  // metres from one place to the next
const GAP = 60000;   // milliseconds without a place behind which a new part begins
// The ellipsoid of WGS 84: its large half axis in metres, and the square of its eccentricity.
const LARGE_AXIS = 6378137, ECCENTRICITY_SQUARED = 0.00669437999014;

/**
 * A place of a track: in degrees, with its height where that is told, the clock's milliseconds where the clock can be
 * right, and whether a part of the track begins there.
 * @typedef {{ longitude: number, latitude: number, height: number | null, at: number | null, begins: boolean }} Step
 * @typedef {{ last: Step | null, heard: number | null }} Walk the last place that was taken, and when one was heard
 */

/**
 * How far two places are from each other, in metres; near enough for those of a walk.
 * @type {(one: { longitude: number, latitude: number }, other: { longitude: number, latitude: number }) => number}
 */
export function metresBetween(one, other) {
  const radians = Math.PI / 180, middle = (one.latitude + other.latitude) / 2 * radians;
  const part = 1 - ECCENTRICITY_SQUARED * Math.sin(middle) ** 2, across = LARGE_AXIS / Math.sqrt(part);
  const east = ((other.longitude - one.longitude + 540) % 360 - 180) * radians * Math.cos(middle) * across;
  const north = (other.latitude - one.latitude) * radians * across * (1 - ECCENTRICITY_SQUARED) / part;
  return Math.hypot(east, north);
}

/**
 * A walk behind a place that was told, and the step that is taken of it; null where it isn't exact enough, or not far
 * enough from the last.
 * @param {Walk} walk
 * @param {{ longitude: number, latitude: number, accuracy: number | null, height: number | null }} fix
 * @param {number} now the clock's milliseconds
 * @returns {{ walk: Walk, step: Step | null }}
 */
export function walked({ last, heard }, fix, now) {
  const { longitude, latitude, accuracy, height } = fix;
  if (accuracy !== null && accuracy > MOST_OFF) return { walk: { last, heard }, step: null };
  const begins = !last || heard === null || Math.abs(now - heard) > GAP;
  const least = Math.min(Math.max(LEAST_STEP, accuracy ?? 0), MOST_STEP);
  if (!begins && last && metresBetween(last, fix) < least) return { walk: { last, heard: now }, step: null };
  const at = now >= LEAST_CLOCK && now <= MOST_CLOCK ? now : null, step = { longitude, latitude, height, at, begins };
  return { walk: { last: step, heard: now }, step };
}

/**
 * A track's parts.
 * @param {Step[]} steps
 */
export function partsOfTrack(steps) {
  const starts = steps.flatMap((it, at) => it.begins || at === 0 ? [at] : []);
  return starts.map((from, at) => steps.slice(from, starts[at + 1]));
}

/**
 * How long a track is, in metres.
 * @param {Step[]} steps
 */
export const lengthOfTrack = steps => steps.reduce((sum, it, at) =>
  at === 0 || it.begins ? sum : sum + metresBetween(steps[at - 1], it), 0);

/** @type {(step: Step) => string} */
function pointOfTrack({ longitude, latitude, height, at }) {
  const high = height === null ? "" : `<ele>${height.toFixed(2)}</ele>`;
  const when = at === null ? "" : `<time>${new Date(at).toISOString()}</time>`;
  return `<trkpt lat="${latitude.toFixed(9)}" lon="${longitude.toFixed(9)}">${high}${when}</trkpt>\n`;
}

/**
 * A track as GPX 1.1.
 * @param {Step[]} steps
 */
export function gpxOfTrack(steps) {
  const parts = partsOfTrack(steps).map(it => `<trkseg>\n${it.map(pointOfTrack).join("")}</trkseg>\n`);
  return '<?xml version="1.0" encoding="UTF-8"?>\n<gpx version="1.1" creator="mmpkg" ' +
    `xmlns="http://www.topografix.com/GPX/1/1">\n<trk>\n${parts.join("")}</trk>\n</gpx>\n`;
}

/** @type {(attributes: string, name: string) => number} */
const numberIn = (attributes, name) =>
  Number(new RegExp(`\\s${name}\\s*=\\s*["']\\s*(-?[0-9.]+)\\s*["']`).exec(attributes)?.[1] ?? NaN);

/**
 * The track of a text of GPX; null where it has none.
 * @param {string} text
 * @returns {import("./lines.mjs").Shape | null}
 */
export function shapeOfGpx(text) {
  const parts = text.split(/<trkseg[\s>]/).slice(1).map(part => [...part.matchAll(/<trkpt(\s[^>]*)>/g)].map(it =>
    /** @type {[number, number]} */ ([numberIn(it[1], "lon"), numberIn(it[1], "lat")])));
  const degrees = parts.filter(it => it.length > 0);
  if (!degrees.length || degrees.flat(2).some(it => !(Math.abs(it) <= 360))) return null;
  const tracked = text.slice(text.indexOf("<trkseg"));
  const times = [...tracked.matchAll(/<time>([^<]*)<\/time>/g)].map(it => Date.parse(it[1]));
  const moments = times.filter(it => !Number.isNaN(it));
  const seconds = moments.length > 1 ? (moments[moments.length - 1] - moments[0]) / 1000 : null;
  return { kind: "track", system: null, corners: null, degrees, seconds };
}

/**
 * The line, area or track of a row's file, by its type; null where it is none.
 * @param {string} type
 * @param {string} text
 */
export const shapeOfText = (type, text) => type === GPX ? shapeOfGpx(text) : shapeOfGeoJson(text);
