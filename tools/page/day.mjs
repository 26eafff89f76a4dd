// Which rows are of a day, by what the page knows.

import { LEAST_CLOCK, MOST_CLOCK } from "./notes.mjs";

/**
 * When a row was made, in the clock's milliseconds, by a number that a page gave it; null where an office did, or where
 * the clock was wrong.
 * @param {number} id
 */
export function madeAt(id) {
  const at = Math.floor(id / 4096) + Date.UTC(2020, 0, 1);
  return at >= LEAST_CLOCK && at <= MOST_CLOCK ? at : null;
}

/**
 * The rows of a day: those that were made on it, those that were changed on it here, and those that wait.
 * @template {{ id: number, waits?: string }} Row
 * @param {Row[]} list
 * @param {{ from: number, to: number, changed: Set<number> }} day its first millisecond, that of the next, and the
 *   numbers of the rows that were changed
 * @returns {Row[]}
 */
export function rowsOfDay(list, { from, to, changed }) {
  return list.filter(({ id, waits }) => {
    const at = madeAt(id);
    return waits || changed.has(id) || at !== null && at >= from && at < to;
  });
}
