// Fields of a table's form, as the office lays them out in rows of the table 'forms' (docs/FORMATS.md, section 12), and
// their values, which are words of a row's note.

import { columnsIn, isNameOfWord, wordOfValue } from "./notewords.mjs";
import { phrase, toSay } from "./tongue.mjs";

/** The table whose rows are fields. */
export const FORMS = "forms";
const KINDS = ["text", "number", "choice", "yesno", "date"];
const YES_NO = toSay(["yes", "no"]);
const NUMBER_TYPED = /^([+-]?)0*(\d{1,15})(?:[.,](\d{0,14}?)0*)?$/;
const DAY_TYPED = /^(\d{4})-(\d{2})-(\d{2})$/;

/**
 * @typedef {{ name: string, label: string, kind: string, choices: string[], unit: string, isWanted: boolean }} Field
 * @typedef {{ text: string, values: Map<string, string> }} Parted the text of a note, and the values of its fields
 * @typedef {import("./changes.mjs").Row} Row
 */

/**
 * The fields of a table's form in their order: by the amounts of their rows, and then by their numbers. A row that
 * names no field of it is passed over, and so is a second of one name.
 * @param {Row[]} rows of the table of forms
 * @param {string} table
 * @returns {Field[]}
 */
export function fieldsOf(rows, table) {
  const sorted = [...rows].sort((one, other) => one.amount - other.amount || one.id - other.id);
  const found = /** @type {Map<string, Field>} */ (new Map());
  for (const { title, note } of sorted) {
    const name = title.startsWith(`${table}.`) ? title.slice(table.length + 1) : "";
    if (isNameOfWord(name) && !found.has(name)) found.set(name, fieldTold(name, note));
  }
  return [...found.values()];
}

/**
 * A field as its note tells it. One of another kind, or of a choice without choices, is a text.
 * @param {string} name
 * @param {string} note
 * @returns {Field}
 */
function fieldTold(name, note) {
  const { words } = columnsIn(note), told = words.get("kind") ?? "", unit = words.get("unit") ?? "";
  const listed = [...new Set((words.get("choices") ?? "").split("|").map(it => it.trim()).filter(it => it))];
  const kind = KINDS.includes(told) && (told !== "choice" || listed.length > 0) ? told : "text";
  const choices = kind === "choice" ? listed : kind === "yesno" ? YES_NO : [];
  const label = words.get("label") || name.replaceAll("_", " ");
  return { name, label, kind, choices, unit, isWanted: words.get("wanted") === "yes" };
}

/**
 * A note as its form shows it: its text, and the values of the fields.
 * @param {string} note without a place
 * @param {Field[]} fields
 * @returns {Parted}
 */
export function partedNote(note, fields) {
  const names = new Set(fields.map(it => it.name)), { words, rest } = columnsIn(note, it => names.has(it));
  return { text: rest, values: words };
}

/**
 * The note of a text and the values of fields, in the fields' order; empty ones are none. It is letter by letter the
 * note that they were taken from, where nothing of them has changed.
 * @param {Parted} parted
 * @param {Field[]} fields
 * @param {string} before
 */
export function noteOfFields({ text, values }, fields, before) {
  const was = partedNote(before, fields);
  const isSame = fields.every(({ name }) => (values.get(name) ?? "") === (was.values.get(name) ?? ""));
  if (isSame && text === was.text) return before;
  const words = fields.flatMap(({ name }) => values.get(name) ? [wordOfValue(name, values.get(name) ?? "")] : []);
  return [text, ...words].filter(it => it).join(" ");
}

/**
 * A value as it is kept of what was typed: a number as the office's columns spell it.
 * @param {Field} field
 * @param {string} typed
 */
export function valueTyped({ kind }, typed) {
  const text = typed.trim(), found = kind === "number" ? NUMBER_TYPED.exec(text) : null;
  if (!found) return text;
  const [, sign, whole, part] = found, size = part ? `${whole}.${part}` : whole;
  return sign === "-" && /[1-9]/.test(size) ? `-${size}` : size;
}

/** @type {(text: string) => boolean} */
function isDay(text) {
  const [, year, month, day] = (DAY_TYPED.exec(text) ?? []).map(Number);
  const date = new Date(Date.UTC(year, month - 1, day));
  return date.getUTCFullYear() === year && date.getUTCMonth() === month - 1 && date.getUTCDate() === day;
}

/**
 * What is odd about a value, in words; empty where nothing is.
 * @param {Field} field
 * @param {string} value
 */
export function doubtOfValue({ kind, choices, isWanted }, value) {
  if (!value) return isWanted ? phrase("This is wanted.") : "";
  if (kind === "number" && !NUMBER_TYPED.test(value)) return phrase("This is no number.");
  if (kind === "date" && !isDay(value)) return phrase("This is no day, as 2026-06-15 is.");
  return choices.length && !choices.includes(value) ? phrase("This is none of the choices.") : "";
}

/**
 * The fields of which something is odd, with what it is.
 * @param {Parted} parted
 * @param {Field[]} fields
 */
export const doubtsOfFields = ({ text, values }, fields) => fields.map(field => {
  const isTwice = columnsIn(text, it => it === field.name).words.has(field.name);
  return { field, why: isTwice ? phrase("The note has this too.") : doubtOfValue(field, values.get(field.name) ?? "") };
}).filter(({ why }) => why);

/**
 * A title that begins with a word: in place of the common word that it began with, if any.
 * @param {string} title
 * @param {string} word
 * @param {string[]} common
 */
export function beganWith(title, word, common) {
  const [first] = title.trim().split(" "), isCommon = common.some(it => it.toLowerCase() === first.toLowerCase());
  const rest = isCommon ? title.trim().slice(first.length).trim() : title.trim();
  return rest ? `${word} ${rest}` : word;
}
