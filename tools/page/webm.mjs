// Which tracks a WebM has, by the elements in front of its sound and pictures (Extensible Binary Meta Language,
// RFC 8794; Matroska, RFC 9559). None is looked for by its letters in the whole: packed sound has any letters.

// Elements by their names, the kind of a track of sound, and limits: bytes of a number, and letters of a text.
const MATROSKA = { header: 0x1a45dfa3, kind: 0x4282, segment: 0x18538067, tracks: 0x1654ae6b, track: 0xae,
  kindOfTrack: 0x83, codec: 0x86, sound: 2, mostBytes: 8, mostLetters: 32 };

/**
 * A number whose first byte tells its length; null where there is none. The name of an element keeps what tells it,
 * and a size of ones alone goes on to the end.
 * @param {Uint8Array} bytes @param {number} at @param {boolean} isName
 */
function numberOfElement(bytes, at, isName) {
  const length = Math.clz32(bytes[at] ?? 0) - 23, mark = 0x80 >> length - 1;
  const there = [...bytes.subarray(at, at + length)];
  if (length > MATROSKA.mostBytes || there.length < length) return null;
  const isOpen = there.every((byte, place) => byte === (place ? 0xff : 2 * mark - 1));
  const value = there.reduce((before, byte) => before * 256 + byte, 0);
  return { value: isName ? value : isOpen ? Infinity : value - mark * 256 ** (length - 1), behind: at + length };
}

/**
 * The elements of a part of a file, of which the last may be cut off.
 * @param {Uint8Array} bytes
 */
function* elementsIn(bytes) {
  for (let at = 0; at < bytes.length;) {
    const name = numberOfElement(bytes, at, true), size = name && numberOfElement(bytes, name.behind, false);
    if (!size) return;
    yield { name: name.value, body: bytes.subarray(size.behind, size.behind + size.value) };
    at = size.behind + size.value;
  }
}

/** @type {(bytes: Uint8Array, name: number) => Uint8Array} */
const elementIn = (bytes, name) => {
  for (const it of elementsIn(bytes)) if (it.name === name) return it.body;
  return new Uint8Array();
};

/** @type {(bytes: Uint8Array, name: number) => string} */
const textIn = (bytes, name) =>
  String.fromCharCode(...elementIn(bytes, name).subarray(0, MATROSKA.mostLetters)).replace(/\0+$/, "");

/**
 * Whether a file is a WebM, of whatever tracks.
 * @param {Uint8Array} bytes
 */
export const isWebm = bytes => textIn(elementIn(bytes, MATROSKA.header), MATROSKA.kind) === "webm";

/**
 * Whether a file is a WebM all of whose tracks are sound that a row takes.
 * @param {Uint8Array} bytes it, or its beginning with all of its tracks
 */
export function isSoundOfWebm(bytes) {
  if (!isWebm(bytes)) return false;
  const all = [...elementsIn(elementIn(elementIn(bytes, MATROSKA.segment), MATROSKA.tracks))];
  const tracks = all.filter(it => it.name === MATROSKA.track).map(it => it.body);
  return tracks.length > 0 && tracks.every(it =>
    elementIn(it, MATROSKA.kindOfTrack)[0] === MATROSKA.sound && /^A_(OPUS|VORBIS)$/.test(textIn(it, MATROSKA.codec)));
}
