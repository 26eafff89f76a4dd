// A place as the device or a receiver tells it: how exact it is, and how old.

import { numeral, phrase } from "./tongue.mjs";

/** Seconds behind which a place is old, and up to which it is as good as told now. */
export const OLD = 10;
export const FRESH = 2;
const LEAST_MOVE = 3;  // metres that count as a move

/**
 * A moment by two clocks, in milliseconds: one that nobody sets, and one that runs on while the device sleeps.
 * @typedef {{ ticks: number, clock: number }} Moment
 * @typedef {{ longitude: number, latitude: number, accuracy: number | null, height: number | null,
 *   heightWithin: number | null, came: Moment, by: "device" | "receiver", words: string }} Fix
 */

/**
 * A number, null where it is none.
 * @param {unknown} it
 */
const finite = it => typeof it === "number" && Number.isFinite(it) ? it : null;

/**
 * A place as a browser tells that of the device; its height is above the ellipsoid.
 * @param {{ longitude: number, latitude: number, accuracy?: number | null, altitude?: number | null,
 *   altitudeAccuracy?: number | null }} coords
 * @param {Moment} came
 * @returns {Fix}
 */
export const fixOf = ({ longitude, latitude, accuracy, altitude, altitudeAccuracy }, came) => ({
  longitude, latitude, accuracy: finite(accuracy), height: finite(altitude),
  heightWithin: finite(altitudeAccuracy), came, by: "device", words: "",
});

/**
 * How many seconds ago a place was told, by the clock that tells more.
 * @param {Fix} fix
 * @param {Moment} now
 */
export const ageOf = ({ came }, now) => Math.max(0, now.ticks - came.ticks, now.clock - came.clock) / 1000;

/**
 * Within how many metres a place is, in words.
 * @param {number | null} accuracy
 */
export function withinTold(accuracy) {
  if (accuracy === null) return phrase("how exact isn't told");
  const metres = accuracy < 1 ? numeral((Math.ceil(accuracy * 100 - 1e-6) / 100).toFixed(2)) : Math.ceil(accuracy);
  return phrase("within {0} m", metres);
}

/**
 * How old a place is, in words; empty where it isn't old.
 * @param {number} age in seconds
 */
export function ageTold(age) {
  if (age <= OLD) return "";
  return age < 120 ? phrase("{0} s old", Math.floor(age)) : age < 7200 ? phrase("{0} min old", Math.floor(age / 60))
    : phrase("{0} h old", Math.floor(age / 3600));
}

/**
 * What is said beside my place.
 * @param {Fix | null} fix
 * @param {number} age
 */
export const wordsOfFix = (fix, age) => fix
  ? [fix.words, withinTold(fix.accuracy), ageTold(age)].filter(it => it).join(", ") : phrase("asking the device ..");

/**
 * Whether a place is another than before: farther from it than either may be off.
 * @param {{ east: number, north: number } | null} before
 * @param {{ east: number, north: number }} now
 * @param {number | null} accuracy
 */
export const hasMoved = (before, now, accuracy) => !before
  || Math.hypot(now.east - before.east, now.north - before.north) > Math.max(LEAST_MOVE, accuracy ?? 0);
