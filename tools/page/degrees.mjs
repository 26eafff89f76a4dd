// Degrees of places in metres: systems.mjs backwards.

import { projected } from "./systems.mjs";

const ROUNDS = 10;      // each brings a latitude nearer by two digits
const SLIP = 0.005;     // how many metres a place may come back beside itself

/**
 * Longitude and latitude in degrees of a place in metres of a transverse Mercator, by Krüger's series; null where that
 * doesn't reach, far from the meridian.
 * @param {import("./systems.mjs").System} system
 * @param {number} east
 * @param {number} north
 */
export function degreesOf(system, east, north) {
  const f = 1 / system.inverse_flattening, n = f / (2 - f), eccentricity = Math.sqrt(f * (2 - f));
  const radians = Math.PI / 180;
  const metres = system.scale_factor * system.semi_major / (1 + n) * (1 + n ** 2 / 4 + n ** 4 / 64);
  const betas = [
    n / 2 - 2 * n ** 2 / 3 + 37 * n ** 3 / 96 - n ** 4 / 360,
    n ** 2 / 48 + n ** 3 / 15 - 437 * n ** 4 / 1440,
    17 * n ** 3 / 480 - 37 * n ** 4 / 840,
    4397 * n ** 4 / 161280,
  ];
  const fromEquator = { ...system, latitude_of_origin: 0, false_northing: 0 };
  const origin = projected(fromEquator, system.central_meridian, system.latitude_of_origin).north;
  const xi = (north - system.false_northing + origin) / metres, eta = (east - system.false_easting) / metres;
  /** @type {(of: (it: number) => number, by: (it: number) => number) => number} */
  const sum = (of, by) => betas.reduce(
    (before, beta, at) => before + beta * of(2 * (at + 1) * xi) * by(2 * (at + 1) * eta), 0);
  const up = xi - sum(Math.sin, Math.cosh), across = eta - sum(Math.cos, Math.sinh);
  const isometric = Math.asinh(Math.sin(up) / Math.hypot(Math.cos(up), Math.sinh(across)));
  let sine = Math.tanh(isometric);
  for (let round = 0; round < ROUNDS; round++) {
    sine = Math.tanh(isometric + eccentricity * Math.atanh(eccentricity * sine));
  }
  const latitude = Math.asin(sine) / radians;
  const longitude = system.central_meridian + Math.atan2(Math.sinh(across), Math.cos(up)) / radians;
  const there = projected(system, longitude, latitude);
  const isThere = Math.hypot(there.east - east, there.north - north) < SLIP;
  return isThere ? { longitude: (longitude + 540) % 360 - 180, latitude } : null;
}
