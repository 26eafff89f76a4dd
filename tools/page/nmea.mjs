// What a GNSS receiver tells by NMEA 0183: bytes as they come, in pieces, with cut lines and garbage between; and the
// places that they tell, of GGA and RMC, with GST and GSA where they are there.

import { phrase, plural, toSay } from "./tongue.mjs";

const MOST_REST = 512;  // characters without an end of a line that are kept: a sentence has 82
const SENTENCE = /^\$(?:[A-Z]{2}([A-Z]{3})|P[A-Z0-9]+),([\x20-\x29\x2b-\x7e]*)$/;
// By the quality of GGA, its words; of a place that nobody measured there is none.
const QUALITIES = toSay(["no place", "GNSS", "GNSS with corrections", "GNSS (PPS)", "RTK fixed", "RTK float"]);
const UNMEASURED = toSay(["reckoned on without satellites", "set by hand", "simulated"]);
/**
 * By the mode of RMC, the quality of GGA.
 * @type {Record<string, number>}
 */
const RMC_MODES = { A: 1, D: 2, P: 3, R: 4, F: 5, E: 6, M: 7, S: 8, N: 0 };
// Metres within which a place is, in 95 of 100, for an HDOP of 1: without and with corrections, as gpsd has them.
const PLAIN_ERROR = 15, CORRECTED_ERROR = 3.75;

/**
 * What a receiver tells of one moment: a place, or none, and what is said of it.
 * @typedef {{ longitude: number, latitude: number, accuracy: number | null, height: number | null,
 *   heightWithin: number | null }} Place
 * @typedef {{ time: string, words: string, place: Place | null }} Told
 * @typedef {{ time: string, isTold: boolean, fields: Record<string, string[]> }} Epoch
 */

/**
 * The checksum of a sentence, between '$' and '*'.
 * @param {string} text
 */
const checksumOf = text => [...text].reduce((sum, it) => sum ^ it.charCodeAt(0), 0);

/**
 * The kind and the fields of a line's sentence, without a kind where it is a maker's own; null where it is none, or its
 * checksum is wrong. Of lines that were joined, since one was cut, the last counts.
 * @param {string} line
 */
export function sentenceOf(line) {
  const parts = /^(\$[^$*]*)\*([0-9A-Fa-f]{2})\s*$/.exec(line.slice(line.lastIndexOf("$")));
  if (!parts || checksumOf(parts[1].slice(1)) !== parseInt(parts[2], 16)) return null;
  const found = SENTENCE.exec(parts[1]);
  return found && { kind: found[1] ?? "", fields: found[2].split(",") };
}

/**
 * A field as a number; null where it is empty or none.
 * @param {string | undefined} text
 */
const fieldNumber = text => /^-?\d+(\.\d*)?$|^-?\.\d+$/.test(text ?? "") ? Number(text) : null;

/**
 * Degrees of a field as ddmm.mmmm, with the field of its half; null where they are none.
 * @param {string | undefined} text
 * @param {string | undefined} half
 * @param {string} halves those that are, the one below zero last
 * @param {number} most
 */
function degreesIn(text, half, halves, most) {
  const found = /^(\d{1,3})(\d\d(?:\.\d+)?)$/.exec(text ?? ""), sign = halves.indexOf(half || "-");
  const degrees = found ? Number(found[1]) + Number(found[2]) / 60 : NaN;
  return found && sign >= 0 && Number(found[2]) < 60 && degrees <= most ? degrees * (sign ? -1 : 1) : null;
}

/** @param {Record<string, string[]>} of */
function qualityIn({ GGA, RMC }) {
  if (RMC && RMC[1] !== "A") return 0;
  return GGA ? fieldNumber(GGA[5]) ?? 0 : RMC_MODES[RMC[11] || "A"] ?? 0;
}

/**
 * Within how many metres a place is in 95 of 100: by GST's deviations, else by HDOP.
 * @param {Record<string, string[]>} of
 * @param {number} quality
 */
function accuracyIn({ GGA, GSA, GST }, quality) {
  const [north, east] = [fieldNumber(GST?.[5]), fieldNumber(GST?.[6])];
  if (north !== null && east !== null && north + east > 0) return 2 * Math.hypot(north, east);
  const dilution = fieldNumber(GGA?.[7]) ?? fieldNumber(GSA?.[15]);
  return dilution === null || dilution <= 0 ? null : dilution * (quality > 1 ? CORRECTED_ERROR : PLAIN_ERROR);
}

/**
 * The height above the ellipsoid: that above the sea with the geoid's; null where one of them isn't told, or the
 * receiver measures no height.
 * @param {Record<string, string[]>} of
 */
function ellipsoidHeight({ GGA, GSA }) {
  const [sea, geoid] = [fieldNumber(GGA?.[8]), fieldNumber(GGA?.[10])];
  return sea === null || geoid === null || GSA?.[1] === "2" ? null : Number((sea + geoid).toFixed(6));
}

/**
 * What the sentences of one moment tell.
 * @param {Epoch} epoch
 * @returns {Told}
 */
function toldBy({ time, fields }) {
  const { GGA, RMC, GST } = fields, quality = qualityIn(fields), from = GGA ? GGA.slice(1) : RMC.slice(2);
  const latitude = degreesIn(from[0], from[1], "NS", 90), longitude = degreesIn(from[2], from[3], "EW", 180);
  const isMeasured = quality > 0 && quality < QUALITIES.length && latitude !== null && longitude !== null;
  const count = fieldNumber(GGA?.[6]);
  const seen = count === null ? "" : plural(count, "{0} satellite", "{0} satellites");
  const how = isMeasured ? QUALITIES[quality] : UNMEASURED[quality - QUALITIES.length] ?? QUALITIES[0];
  const words = [phrase(how), seen].filter(it => it).join(", "), up = fieldNumber(GST?.[7]);
  if (!isMeasured) return { time, words, place: null };
  const height = ellipsoidHeight(fields), heightWithin = height !== null && up ? 2 * up : null;
  return { time, words, place: { longitude, latitude, accuracy: accuracyIn(fields, quality), height, heightWithin } };
}

/**
 * What a receiver tells that has no time yet, and so no place.
 * @type {(kind: string, fields: string[]) => Told[]}
 */
const withoutTime = (kind, fields) =>
  kind === "GST" ? [] : [{ ...toldBy({ time: "", isTold: true, fields: { [kind]: fields } }), place: null }];

/** What a receiver tells, as its bytes come. */
class Receiver {
  constructor() {
    this.rest = "";
    /** @type {Epoch | null} */
    this.epoch = null;
    this.kinds = "";  // those of the moment before: once they are there again, that is all of a moment
    this.good = 0;    // how many sentences came whole
  }

  /**
   * Takes the next bytes, and answers what they tell.
   * @param {Uint8Array} bytes
   * @returns {Told[]}
   */
  take(bytes) {
    const lines = (this.rest + Array.from(bytes, it => String.fromCharCode(it)).join("")).split(/[\r\n]/);
    this.rest = (lines.pop() ?? "").slice(-MOST_REST);
    return lines.flatMap(it => this.hear(it));
  }

  /**
   * Takes a line: what it completes is told.
   * @param {string} line
   * @returns {Told[]}
   */
  hear(line) {
    const found = sentenceOf(line), told = [];
    if (!found) return [];
    this.good += 1;
    const { kind, fields } = found, time = fields[0];
    if (!["GGA", "RMC", "GST", "GSA"].includes(kind)) return [];
    if (kind !== "GSA" && fieldNumber(time) === null) return withoutTime(kind, fields);
    if (kind !== "GSA" && time !== this.epoch?.time) {
      told.push(...this.complete());
      this.kinds = this.epoch ? kindsIn(this.epoch) : "";
      this.epoch = { time, isTold: false, fields: {} };
    }
    if (!this.epoch) return [];
    this.epoch.fields[kind] ??= fields;
    if (kindsIn(this.epoch) === this.kinds) told.push(...this.complete());
    return told;
  }

  /** Tells the moment that is under way, where that has a place and isn't told yet. */
  complete() {
    const epoch = this.epoch;
    if (!epoch || epoch.isTold || !epoch.fields.GGA && !epoch.fields.RMC) return [];
    epoch.isTold = true;
    return [toldBy(epoch)];
  }
}

/** @param {Epoch} epoch */
const kindsIn = ({ fields }) => Object.keys(fields).sort().join();

/** What hears a receiver from now on. */
export const newReceiver = () => new Receiver();
