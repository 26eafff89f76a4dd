// Numbers of rows, and places as words of a note (docs/FORMATS.md, section 12).

export const LEAST_CLOCK = Date.UTC(2026, 0, 1);
export const MOST_CLOCK = Date.UTC(2050, 0, 1);
const SMALLEST = (LEAST_CLOCK - Date.UTC(2020, 0, 1)) * 4096;  // the numbers of an office are far smaller
/** One of Unicode's White_Space, in a pattern. */
export const SPACE = "[\\t-\\r \\x85\\xa0\\u1680\\u2000-\\u200a\\u2028\\u2029\\u202f\\u205f\\u3000]";
const NUMBER = "(-?\\d{1,9}(?:\\.\\d{1,6})?)";
const PLACE = new RegExp(`(?:^|${SPACE})@(?:(-1|[1-9]\\d{0,15}):)?${NUMBER}/${NUMBER}(?=${SPACE}|$)`);

// What is meant for a place, whether it is one or not.
const MEANT = new RegExp(`(?:^|${SPACE})@`);

/** What a field for metres may have. */
export const METRES = /^-?\d{1,9}([.,]\d{1,6})?$/;

/**
 * A place in metres of a system.
 * @typedef {{ system: number, east: string, north: string, rest?: string }} Place
 */

/**
 * A number that no other crew makes: milliseconds since 2020, and 12 bits by chance. Those of an office are far
 * smaller. Where the clock can't be right, as on a tablet whose battery was empty, it is 2^52 and 52 bits by chance,
 * which no clock tells before 2054.
 * @param {number} now the clock's milliseconds
 * @param {ArrayLike<number>} chance two numbers of 32 bits
 */
export function numberAt(now, chance) {
  const [high, low] = Array.from(chance), isWrong = now < LEAST_CLOCK || now > MOST_CLOCK;
  const since = isWrong ? 2 ** 40 + high * 256 + (low >>> 24) : now - Date.UTC(2020, 0, 1);
  return since * 4096 + (low & 4095);
}

// The last 12 bits of the number of a line, an area or a track are 3840 to 4095.
const SHAPES_FROM = 3840;

/**
 * A number that no other crew makes, of a line, an area or a track: by it these are told from other files of a row
 * before they are asked for.
 * @param {number} now the clock's milliseconds
 * @param {ArrayLike<number>} chance two numbers of 32 bits
 */
export const shapeNumberAt = (now, chance) => numberAt(now, [chance[0], (chance[1] | SHAPES_FROM) >>> 0]);

/**
 * Whether a file of a row may be a line, an area or a track, by its number.
 * @param {number} number
 */
export const isShapeNumber = number => number >= SMALLEST && number % 4096 >= SHAPES_FROM;

/**
 * The place that a note tells, with the rest of the note; null where it tells none.
 * @param {string} note
 * @param {number | null} only the system of all maps, null where they have several: of it is a place that names none
 * @returns {Place & { rest: string } | null}
 */
export function placeOfNote(note, only) {
  const found = PLACE.exec(note), system = found?.[1] ? Number(found[1]) : only;
  if (!found || system === null) return null;
  const rest = (note.slice(0, found.index) + note.slice(found.index + found[0].length)).trim();
  return { system, east: found[2], north: found[3], rest };
}

/**
 * Whether a note has a word that means a place, whether it tells one or not.
 * @param {string} note
 */
export const isMeant = note => MEANT.test(note);

/**
 * The word of a place; empty where there is none.
 * @param {Place | null} [place]
 */
export const wordOf = place => place ? `@${place.system}:${place.east}/${place.north}` : "";

/**
 * A note with a place in front, which is null where there is none.
 * @param {Place | null} place
 * @param {string} rest
 */
export const noteOf = (place, rest) => [wordOf(place), rest].filter(it => it).join(" ");
