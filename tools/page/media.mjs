// What a file of a row is, by how its bytes begin: pictures, PDF, sound, lines and areas, and tracks. A browser tells a
// file's type by its name alone, and what is kept of it in the outbox has none.

import { numeral, phrase } from "./tongue.mjs";
import { isSoundOfWebm, isWebm } from "./webm.mjs";

const PDF = "application/pdf", HEAD_OF_TEXT = 4096, HEAD_OF_OGG = 36;
/** The types of lines and areas, and of tracks. */
export const GEOJSON = "application/geo+json";
export const GPX = "application/gpx+xml";
// How a text of these begins: GeoJSON has its type in front as the page and GDAL write it.
const GEOJSON_BEGINS = /^\s*\{\s*"type"\s*:\s*"Feature/;
const GPX_BEGINS = /^(?:\xef\xbb\xbf)?\s*(?:<\?xml[^>]*\?>\s*)?(?:<!--[^]*?-->\s*)*<gpx[\s>]/;
const KIB = 1024, MIB = 1048576;

/** @type {(bytes: Uint8Array, at: number, count: number) => string} */
const lettersAt = (bytes, at, count) => String.fromCharCode(...bytes.subarray(at, at + count));

/**
 * The type of a WebM or an Ogg that has sound alone; null where it has pictures, or what it has isn't known.
 * @param {Uint8Array} bytes
 */
const typeOfStream = bytes => isSoundOfOgg(lettersAt(bytes, 0, HEAD_OF_OGG)) ? "audio/ogg"
  : isSoundOfWebm(bytes) ? "audio/webm" : null;

/** @type {(head: string) => boolean} */
const isSoundOfOgg = head => /^OggS.{24}(OpusHead|\x01vorbis|\x7fFLAC)/s.test(head);

/**
 * The content type of a file that a row may have; null where it is another.
 * @param {ArrayBuffer | null | undefined} file its first HEAD bytes, or all of it
 */
export function typeOfFile(file) {
  const bytes = new Uint8Array(file ?? []), head = lettersAt(bytes, 0, 12);
  if (head.startsWith("\xff\xd8\xff")) return "image/jpeg";
  if (head.startsWith("%PDF-")) return PDF;
  if (/^RIFF.{4}WAVE/s.test(head)) return "audio/wav";
  if (/^.{4}ftypM4A /s.test(head)) return "audio/mp4";
  // MPEG audio: a tag in front, or at once a frame of layer III whose rates are none of those that are kept free.
  if (head.startsWith("ID3") || isFrame(bytes)) return "audio/mpeg";
  return typeOfText(lettersAt(bytes, 0, HEAD_OF_TEXT)) ?? typeOfStream(bytes);
}

/**
 * The content type of what a form has taken; null where it isn't known. An older page took a WebM for sound where this
 * one asks for more of its tracks: in a form it is sound still.
 * @param {ArrayBuffer | null | undefined} bytes
 */
export const typeInForm = bytes =>
  typeOfFile(bytes) ?? (isWebm(new Uint8Array(bytes ?? [])) ? "audio/webm" : null);

/** @type {(text: string) => string | null} */
const typeOfText = text => GEOJSON_BEGINS.test(text) ? GEOJSON : GPX_BEGINS.test(text) ? GPX : null;

/** @type {(bytes: Uint8Array) => boolean} */
const isFrame = ([one, two, three]) => one === 0xff && (two & 0xe6) === 0xe2 && (two & 0x18) !== 0x08
  && three >= 0x10 && three < 0xf0 && (three & 0x0c) !== 0x0c;

/**
 * @param {string | null | undefined} type
 */
export const isSound = type => Boolean(type?.startsWith("audio/"));

/**
 * Whether a row's file is a line, an area or a track.
 * @param {string | null | undefined} type
 */
export const isShape = type => type === GEOJSON || type === GPX;

/**
 * Whether a row's file is no picture.
 * @param {string | null | undefined} type
 */
export const isPaper = type => type === PDF || isSound(type) || isShape(type);

/**
 * What a row's file is, in a word as acts are kept.
 * @param {string | null | undefined} type
 */
export const nounOf = type => type === PDF ? "PDF" : isSound(type) ? "sound" : type === GPX ? "track"
  : type === GEOJSON ? "shape" : "photo";

/**
 * What a file that is no picture is, at the beginning of its words.
 * @param {string | null | undefined} type
 */
export const kindOfFile = type => type === PDF ? "PDF"
  : phrase(type === GEOJSON ? "Shape" : type === GPX ? "Track" : "Sound");

/**
 * A size in words.
 * @param {number} bytes
 */
export const wordsOfSize = bytes => bytes < MIB ? `${Math.ceil(bytes / KIB)} KiB`
  : `${numeral((bytes / MIB).toFixed(1))} MiB`;

/**
 * Why a file can't be taken, in words; nothing where it can.
 * @param {string} name
 * @param {number} size
 * @param {number} most how many bytes a media item may have
 */
export function whyTooLong(name, size, most) {
  const told = wordsOfSize(Math.max(size, most + MIB / 10));
  return size <= most ? ""
    : phrase("{0} has {1}: the package takes files of at most {2}.", name, told, wordsOfSize(most));
}
