// Who saved a row last, and when: two words of its note (docs/FORMATS.md, section 12).

import { LEAST_CLOCK, MOST_CLOCK, SPACE } from "./notes.mjs";
import { wordIn } from "./notewords.mjs";

const MOST_NAME = 60, MOST_SIGNED = 1000;
const TO_THE_SECOND = /^[0-9]{4}-[0-9]{2}-[0-9]{2}T[0-9]{2}:[0-9]{2}:[0-9]{2}(\.[0-9]{3})?Z$/;
const SPACED_NAME = new RegExp(SPACE), MANY_SPACES = new RegExp(`${SPACE}+`, "g"), IN_FRONT = new RegExp(`^${SPACE}`);

/**
 * @typedef {{ by: string, at: string }} Signature
 */

/**
 * A note without who saved it and when, and these; null where it has none.
 * @param {string} note
 * @returns {{ rest: string, signature: Signature | null }}
 */
export function signatureIn(note) {
  const at = note.includes("at=") ? wordIn(note, "at") : null, by = at ? wordIn(note, "by") : null;
  const isTold = at && by && by.value && TO_THE_SECOND.test(at.value) && !Number.isNaN(Date.parse(at.value));
  if (!isTold) return { rest: note, signature: null };
  const [one, two] = by.from < at.from ? [by, at] : [at, by];
  const rest = note.slice(0, one.from) + note.slice(one.to, two.from) + note.slice(two.to);
  const signature = { by: by.value, at: at.value };
  return { rest: one.from ? rest : rest.replace(IN_FRONT, ""), signature };
}

/**
 * A note without who saved it and when.
 * @param {string} note
 */
export const unsigned = note => signatureIn(note).rest;

/**
 * A crew's name as a note has it: no place, on one line.
 * @param {string} text
 */
export const nameOfCrew = text => text.replaceAll("@", " ").replace(MANY_SPACES, " ").trim().slice(0, MOST_NAME).trim();

/**
 * Who saves now; null where the crew has no name, or the clock can't be right.
 * @param {string} name
 * @param {number} now the clock's milliseconds
 * @returns {Signature | null}
 */
export function signatureAt(name, now) {
  const by = nameOfCrew(name);
  if (!by || now < LEAST_CLOCK || now > MOST_CLOCK) return null;
  return { by, at: new Date(now).toISOString().replace(/\.\d+Z$/, "Z") };
}

/**
 * A note with who saved it and when, in place of what it told of that. As it is without that where it has a word by= or
 * at= of its own, or would be too long.
 * @param {string} note
 * @param {Signature | null} signature
 */
export function signed(note, signature) {
  const rest = unsigned(note);
  if (!signature || wordIn(rest, "by") || wordIn(rest, "at")) return rest;
  const { by, at } = signature, isQuoted = SPACED_NAME.test(by) || by.startsWith('"');
  const made = [rest, `by=${isQuoted ? `"${by.replaceAll('"', '""')}"` : by} at=${at}`].filter(it => it).join(" ");
  return new TextEncoder().encode(made).length > MOST_SIGNED ? rest : made;
}

/**
 * The later of two; what is there where one isn't.
 * @param {Signature | null} one
 * @param {Signature | null} other
 */
export const laterOf = (one, other) => !one || !other ? one ?? other
  : Date.parse(other.at) > Date.parse(one.at) ? other : one;

/**
 * When a row was saved last, in the clock's milliseconds, as its note tells it; null where it doesn't.
 * @param {string} note
 */
export function savedAt(note) {
  const { signature } = signatureIn(note);
  return signature ? Date.parse(signature.at) : null;
}
