// The camera of the form: where it looks, and what is said of it.

import { withinTold } from "./fixes.mjs";
import { compassOf } from "./systems.mjs";
import { phrase, toSay } from "./tongue.mjs";

const LEAST_ACROSS = 0.2;  // of a camera that looks up or down no direction is told: this is 11 degrees from there

/** @type {Record<string, string>} */
const WHY_NO_MICROPHONE = toSay({
  NotAllowedError: "The browser doesn't let this page have the microphone: allow it for this address.",
  NotFoundError: "The browser knows no microphone of this device.",
  NotReadableError: "The microphone doesn't answer: another program may have it.",
});
/** @type {Record<string, string>} */
const WHY_NOT = toSay({
  NotAllowedError: "The browser doesn't let this page have the camera: allow it for this address, or choose a file.",
  NotFoundError: "The browser knows no camera of this device: choose a file.",
  OverconstrainedError: "The browser knows no camera of this device: choose a file.",
  NotReadableError: "The camera doesn't answer: another program may have it.",
  AbortError: "The camera doesn't answer: another program may have it.",
});

/**
 * Where a camera on a device's back looks, in degrees from north to the east, by the angles that a browser tells of the
 * device (Device Orientation, the sample of a heading); null where it looks up or down.
 * @param {number | null} alpha
 * @param {number | null} beta
 * @param {number | null} gamma
 */
export function directionOf(alpha, beta, gamma) {
  if (alpha === null || beta === null || gamma === null) return null;
  const [z, x, y] = [alpha, beta, gamma].map(it => it * Math.PI / 180);
  const east = -Math.cos(z) * Math.sin(y) - Math.sin(z) * Math.sin(x) * Math.cos(y);
  const north = -Math.sin(z) * Math.sin(y) + Math.cos(z) * Math.sin(x) * Math.cos(y);
  if (Math.hypot(east, north) < LEAST_ACROSS) return null;
  return (Math.atan2(east, north) * 180 / Math.PI + 360) % 360;
}

/**
 * A place that the device or a receiver told, as a picture tells it.
 * @param {import("./fixes.mjs").Fix} fix
 */
export const placeOfShot = ({ longitude, latitude, accuracy, came }) =>
  ({ longitude, latitude, accuracy, at: came.clock });

/**
 * What a picture will tell, in words.
 * @param {{ accuracy: number | null } | null} place
 * @param {number | null} direction
 */
export function wordsOfShot(place, direction) {
  const turned = direction === null ? "" : compassOf(direction), within = place ? withinTold(place.accuracy) : "";
  if (place && turned) {
    return phrase("The picture tells the time, the place ({0}), and the direction, {1}.", within, turned);
  }
  if (place) return phrase("The picture tells the time, the place ({0}).", within);
  return turned
    ? phrase("The picture tells the time, no place: the device tells none yet, and the direction, {0}.", turned)
    : phrase("The picture tells the time, no place: the device tells none yet.");
}

/**
 * Why there is no camera, in words.
 * @param {{ name: string, message: string }} error
 */
export const whyNoCamera = ({ name, message }) =>
  phrase(WHY_NOT[name] ?? "The camera can't be had: {0}.", message || name);

/**
 * Why nothing is recorded, in words.
 * @param {{ name: string, message: string }} error
 */
export const whyNoMicrophone = ({ name, message }) =>
  phrase(WHY_NO_MICROPHONE[name] ?? "Nothing can be recorded: {0}.", message || name);
