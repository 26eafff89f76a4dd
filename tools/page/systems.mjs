// Where degrees are in a package's system, and ways in words.

import { numeral, phrase, toSay } from "./tongue.mjs";

// How many degrees from its meridian a system is reckoned to less than a millimetre.
const MOST_DEGREES = 10;
const COMPASS = toSay(["N", "NE", "E", "SE", "S", "SW", "W", "NW"]);

/**
 * The parameters of a transverse Mercator.
 * @typedef {{ semi_major: number, inverse_flattening: number, central_meridian: number, latitude_of_origin: number,
 *   scale_factor: number, false_easting: number, false_northing: number }} System
 */

/**
 * A transverse Mercator's way to tell a meridian's length, by Krüger's series: radius, coefficients and eccentricity.
 * @param {System} system
 */
function seriesOf({ semi_major, inverse_flattening }) {
  const f = 1 / inverse_flattening, n = f / (2 - f);
  const radius = semi_major / (1 + n) * (1 + n ** 2 / 4 + n ** 4 / 64);
  const alphas = [
    n / 2 - 2 * n ** 2 / 3 + 5 * n ** 3 / 16 + 41 * n ** 4 / 180,
    13 * n ** 2 / 48 - 3 * n ** 3 / 5 + 557 * n ** 4 / 1440,
    61 * n ** 3 / 240 - 103 * n ** 4 / 140,
    49561 * n ** 4 / 161280,
  ];
  return { radius, alphas, eccentricity: Math.sqrt(f * (2 - f)) };
}

/**
 * Easting and northing in metres of degrees, to less than a millimetre within ten degrees of the meridian.
 * @param {System} system
 * @param {number} longitude
 * @param {number} latitude
 */
export function projected(system, longitude, latitude) {
  const { radius, alphas, eccentricity } = seriesOf(system), radians = Math.PI / 180;
  /** @type {(phi: number, lambda: number) => [number, number]} */
  const along = (phi, lambda) => {
    const t = Math.sinh(Math.atanh(Math.sin(phi)) - eccentricity * Math.atanh(eccentricity * Math.sin(phi)));
    const xi = Math.atan2(t, Math.cos(lambda)), eta = Math.atanh(Math.sin(lambda) / Math.hypot(1, t));
    /** @type {(of: (it: number) => number, by: (it: number) => number) => number} */
    const sum = (of, by) => alphas.reduce(
      (before, alpha, at) => before + alpha * of(2 * (at + 1) * xi) * by(2 * (at + 1) * eta), 0);
    return [xi + sum(Math.sin, Math.cosh), eta + sum(Math.cos, Math.sinh)];
  };
  const [north, east] = along(latitude * radians, (longitude - system.central_meridian) * radians);
  const [origin] = along(system.latitude_of_origin * radians, 0), metres = radius * system.scale_factor;
  return { east: system.false_easting + metres * east, north: system.false_northing + metres * (north - origin) };
}

/**
 * Easting and northing of degrees where a system is reckoned that near: null where it is none, or too far from its
 * meridian.
 * @param {System | undefined} system
 * @param {{ longitude: number, latitude: number }} place
 */
export function placeInSystem(system, { longitude, latitude }) {
  if (!system || Math.abs(longitude - system.central_meridian) > MOST_DEGREES) return null;
  return projected(system, longitude, latitude);
}

/**
 * A direction in words, as whole degrees from north to the east and a point of the compass.
 * @param {number} direction
 */
export function compassOf(direction) {
  const degrees = Math.round(direction + 360) % 360;
  return `${degrees}° (${phrase(COMPASS[Math.round(degrees / 45) % 8])})`;
}

/**
 * A way in words: its length, and its direction by the map's north.
 * @param {number} east
 * @param {number} north
 */
export function wordsOfWay(east, north) {
  const metres = Math.hypot(east, north), degrees = Math.atan2(east, north) * 180 / Math.PI;
  const length = metres < 10 ? metres.toFixed(1) : Math.round(metres).toLocaleString("en");
  return `${numeral(length)} m, ${compassOf(degrees)}`;
}
