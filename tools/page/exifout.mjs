// Exif of a JPEG that is written: of a picture that the page takes, and of one that it has to make smaller.

import { entriesAt, exifIn, toldIn } from "./exif.mjs";
import { LEAST_CLOCK, MOST_CLOCK } from "./notes.mjs";

const BYTE_TYPE = 1, ASCII_TYPE = 2, SHORT_TYPE = 3, LONG_TYPE = 4, RATIONAL_TYPE = 5, UNDEFINED_TYPE = 7;
const ORIENTATION = 0x0112, EXIF_PART = 0x8769, GPS_PART = 0x8825, PIXELS_WIDE = 0xa002, PIXELS_HIGH = 0xa003;
const HEAD_OF_TIFF = 8, SECONDS = 1e5, MOST_METRES = 4e7;
const MARKER = 4, NAMED = [0x45, 0x78, 0x69, 0x66, 0, 0];  // "Exif"

/**
 * What a picture was taken with: when, by the clock's milliseconds and the minutes that its day is before UTC's; where,
 * in degrees of WGS 84, within how many metres, and when the device told that; and by how many degrees from magnetic
 * north to the east the camera was turned.
 * @typedef {{ longitude: number, latitude: number, accuracy: number | null, at: number }} Seen
 * @typedef {{ at: number, ahead: number, place?: Seen | null, direction?: number | null }} Shot
 * @typedef {[tag: number, type: number, bytes: number[], count: number]} Entry
 */

/** @type {(value: number) => number[]} */
const longOf = value => [24, 16, 8, 0].map(it => Math.floor(value / 2 ** it) & 255);

/** @type {(tag: number, values: [number, number][]) => Entry} */
const rationals = (tag, values) => [tag, RATIONAL_TYPE, values.flat().flatMap(longOf), values.length];

/** @type {(tag: number, text: string) => Entry} */
const words = (tag, text) => [tag, ASCII_TYPE, [...`${text}\0`].map(it => it.charCodeAt(0)), text.length + 1];

/** @type {(tag: number, value: number) => Entry} */
const long = (tag, value) => [tag, LONG_TYPE, longOf(value), 1];

/**
 * A directory of TIFF that begins at a place, with the values that have no room in it behind it.
 * @param {Entry[]} entries by rising tags
 * @param {number} at
 */
function directory(entries, at) {
  const head = [entries.length >> 8, entries.length & 255];
  /** @type {number[]} */
  const behind = [];
  for (const [tag, type, bytes, count] of entries) {
    const isShort = bytes.length <= 4, where = at + 2 + 12 * entries.length + 4 + behind.length;
    head.push(tag >> 8, tag & 255, type >> 8, type & 255, ...longOf(count));
    head.push(...isShort ? [...bytes, 0, 0, 0].slice(0, 4) : longOf(where));
    if (!isShort) behind.push(...bytes, ...bytes.length % 2 ? [0] : []);
  }
  return [...head, 0, 0, 0, 0, ...behind];
}

/** @type {(value: number) => string} */
const two = value => String(value).padStart(2, "0");

/** @type {(date: Date) => string} */
const dayOf = date => [date.getUTCFullYear(), ...[date.getUTCMonth() + 1, date.getUTCDate()].map(two)].join(":");

/** @type {(date: Date) => number[]} */
const hoursOf = date => [date.getUTCHours(), date.getUTCMinutes(), date.getUTCSeconds()];

/** @type {(minutes: number) => string} */
const aheadOf = minutes => `${minutes < 0 ? "-" : "+"}${[Math.floor(Math.abs(minutes) / 60), Math.abs(minutes) % 60]
  .map(two).join(":")}`;

/**
 * Degrees, minutes and seconds of a number without its sign.
 * @param {number} degrees
 * @returns {[number, number][]}
 */
function sexagesimal(degrees) {
  const all = Math.round(Math.abs(degrees) * 3600 * SECONDS), minutes = Math.floor(all / 60 / SECONDS);
  return [[Math.floor(minutes / 60), 1], [minutes % 60, 1], [all - minutes * 60 * SECONDS, SECONDS]];
}

/** @type {(value: number) => [number, number]} */
const hundredths = value => [Math.round(value * 100), 100];

/**
 * The entries of the place and of the direction; none where neither is told.
 * @param {Shot} shot
 * @returns {Entry[]}
 */
function placeEntries({ place, direction }) {
  if (!place && typeof direction !== "number") return [];
  const told = place && new Date(place.at);
  /** @type {Entry[]} */
  const where = place ? [words(1, place.latitude < 0 ? "S" : "N"), rationals(2, sexagesimal(place.latitude)),
    words(3, place.longitude < 0 ? "W" : "E"), rationals(4, sexagesimal(place.longitude))] : [];
  /** @type {Entry[]} */
  const when = told ? [rationals(7, hoursOf(told).map(it => [it, 1]))] : [];
  /** @type {Entry[]} */
  const turned = typeof direction === "number"
    ? [words(16, "M"), rationals(17, [[Math.round(direction * 100) % 36000, 100]])] : [];
  const within = place?.accuracy ?? -1, isWithin = within >= 0 && within < MOST_METRES;
  return [[0, BYTE_TYPE, [2, 3, 0, 0], 4], ...where, ...when, ...turned, ...told ? [words(18, "WGS-84")] : [],
    ...told ? [words(29, dayOf(told))] : [], ...isWithin ? [rationals(31, [hundredths(within)])] : []];
}

/**
 * The entries of the time; none where the clock can't be right.
 * @param {Shot} shot
 * @returns {Entry[]}
 */
function timeEntries({ at, ahead }) {
  if (at < LEAST_CLOCK || at > MOST_CLOCK) return [];
  const here = new Date(at + ahead * 60000), told = `${dayOf(here)} ${hoursOf(here).map(two).join(":")}`;
  return [words(0x9003, told), words(0x9004, told), words(0x9011, aheadOf(ahead)), words(0x9012, aheadOf(ahead))];
}

/**
 * A segment of JPEG with Exif in it.
 * @param {ArrayLike<number>} tiff
 */
export function segmentOf(tiff) {
  const size = tiff.length + NAMED.length + 2, segment = new Uint8Array(size + 2);
  segment.set([0xff, 0xe1, size >> 8, size & 255, ...NAMED]);
  segment.set(tiff, MARKER + NAMED.length);
  return segment;
}

/**
 * The segment of Exif that a picture of the page's own has.
 * @param {Shot} shot
 */
export function segmentOfShot(shot) {
  const gps = placeEntries(shot), parts = gps.length ? 2 : 1, behind = HEAD_OF_TIFF + 2 + 12 * parts + 4;
  /** @type {Entry} */
  const version = [0x9000, UNDEFINED_TYPE, [0x30, 0x32, 0x33, 0x32], 4];
  const exif = directory([version, ...timeEntries(shot)], behind), next = behind + exif.length;
  const leads = [long(EXIF_PART, behind), ...gps.length ? [long(GPS_PART, next)] : []];
  const tiff = [0x4d, 0x4d, 0, 42, ...longOf(HEAD_OF_TIFF), ...directory(leads, HEAD_OF_TIFF), ...exif];
  return segmentOf([...tiff, ...gps.length ? directory(gps, next) : []]);
}

/**
 * Whether bytes are the front of a JPEG.
 * @param {ArrayBuffer} bytes
 */
export const isJpeg = bytes => bytes.byteLength > 2 && new DataView(bytes).getUint16(0) === 0xffd8
  && new DataView(bytes).getUint8(2) === 0xff;

/**
 * The segment of Exif of a JPEG, for the same picture drawn upright in another size: without the small picture that the
 * camera put in, which stands as the first one did. Null where there is none that can be read.
 * @param {ArrayBuffer} bytes the file's first HEAD ones
 * @param {number} width
 * @param {number} height
 */
export function segmentCarried(bytes, width, height) {
  try {
    const found = exifIn(new DataView(bytes));
    if (!found || found.byteLength !== new DataView(bytes).getUint16(found.byteOffset - 8) - 8) return null;
    const exif = new DataView(bytes.slice(found.byteOffset, found.byteOffset + found.byteLength)), told = toldIn(exif);
    const first = told.long(4), entries = entriesAt(told, first), more = entries.get(EXIF_PART);
    /** @type {(entry: { type: number, at: number } | undefined, value: number) => void} */
    const put = (entry, value) => {
      if (entry?.type === SHORT_TYPE) exif.setUint16(entry.at, value, told.least);
      if (entry?.type === LONG_TYPE) exif.setUint32(entry.at, value, told.least);
    };
    put(entries.get(ORIENTATION), 1);
    exif.setUint32(first + 2 + 12 * told.short(first), 0, told.least);
    const sizes = more?.type === LONG_TYPE ? entriesAt(told, told.long(more.at)) : new Map();
    put(sizes.get(PIXELS_WIDE), width);
    put(sizes.get(PIXELS_HIGH), height);
    return segmentOf(new Uint8Array(exif.buffer));
  } catch (error) {
    if (error instanceof RangeError) return null;
    throw error;
  }
}
