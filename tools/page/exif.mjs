// Where a photo was taken, as its camera wrote it into the file: the GPS part of Exif in a JPEG.

/** How many bytes of a file have all that is asked here: what stands before the picture is in its first parts. */
export const HEAD = 262144;

const GPS = 0x8825, ASCII = 2, LONG = 4, RATIONAL = 5, MOST_ENTRIES = 512;
const DEGREES = { N: 1, E: 1, S: -1, W: -1 };

/** Bytes whose numbers are told in one order, which end where they end: what is behind is a RangeError. */
class Told {
  /** @param {DataView} view @param {boolean} least whether the least byte comes first */
  constructor(view, least) {
    this.view = view;
    this.least = least;
  }

  /** @param {number} at */
  short(at) { return this.view.getUint16(at, this.least); }

  /** @param {number} at */
  long(at) { return this.view.getUint32(at, this.least); }

  /** @param {number} at */
  rational(at) { return this.long(at) / this.long(at + 4); }
}

/**
 * The bytes of Exif in a JPEG; null where it has none.
 * @param {DataView} file
 */
export function exifIn(file) {
  if (file.byteLength < 4 || file.getUint16(0) !== 0xffd8) return null;
  for (let at = 2; at + 10 <= file.byteLength && file.getUint8(at) === 0xff;) {
    const marker = file.getUint8(at + 1), size = file.getUint16(at + 2);
    if (marker === 0xda) return null;  // the picture begins
    const isExif = marker === 0xe1 && file.getUint32(at + 4) === 0x45786966 && file.getUint16(at + 8) === 0;
    const whole = Math.min(size - 8, file.byteLength - at - 10);
    if (isExif) return new DataView(file.buffer, file.byteOffset + at + 10, Math.max(0, whole));
    at += 2 + size;
  }
  return null;
}

/**
 * What bytes of Exif tell, in the order that they say.
 * @param {DataView} exif
 */
export const toldIn = exif => new Told(exif, exif.getUint16(0) === 0x4949);

/**
 * The entries of a directory of TIFF, by their tags: the type, how many values, and where these stand.
 * @param {Told} told
 * @param {number} at
 */
export function entriesAt(told, at) {
  const count = Math.min(told.short(at), MOST_ENTRIES), entries = new Map();
  for (let it = at + 2; it < at + 2 + 12 * count; it += 12) {
    const [type, many] = [told.short(it + 2), told.long(it + 4)];
    entries.set(told.short(it), { type, many, at: type === RATIONAL ? told.long(it + 8) : it + 8 });
  }
  return entries;
}

/**
 * Degrees of a reference, as N, and of degrees, minutes and seconds; NaN where they are none.
 * @param {Told} told
 * @param {Map<number, { type: number, many: number, at: number }>} entries
 * @param {number} tag that of the reference; the next is that of the degrees
 */
function degreesOfCamera(told, entries, tag) {
  const [side, value] = [entries.get(tag), entries.get(tag + 1)];
  if (side?.type !== ASCII || value?.type !== RATIONAL || value.many !== 3) return NaN;
  const letter = String.fromCharCode(told.view.getUint8(side.at)), sign = DEGREES[/** @type {"N"} */ (letter)];
  const [degrees, minutes, seconds] = [0, 8, 16].map(it => told.rational(value.at + it));
  return (sign ?? NaN) * (degrees + minutes / 60 + seconds / 3600);
}

/**
 * The place that a JPEG tells, in degrees of WGS 84; null where it tells none.
 * @param {ArrayBuffer} bytes its first HEAD ones
 * @returns {{ longitude: number, latitude: number } | null}
 */
export function placeOfPhoto(bytes) {
  try {
    const exif = exifIn(new DataView(bytes));
    if (!exif) return null;
    const told = toldIn(exif), gps = entriesAt(told, told.long(4)).get(GPS);
    if (gps?.type !== LONG) return null;
    const entries = entriesAt(told, told.long(gps.at));
    const [latitude, longitude] = [degreesOfCamera(told, entries, 1), degreesOfCamera(told, entries, 3)];
    const isNone = !(Math.abs(latitude) <= 90 && Math.abs(longitude) <= 180) || latitude === 0 && longitude === 0;
    return isNone ? null : { longitude, latitude };
  } catch (error) {
    if (error instanceof RangeError) return null;
    throw error;
  }
}
