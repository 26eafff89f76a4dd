// What an answer means. Only the package's own counts: anything else at its port leaves all as it is.

import { phrase, toSay } from "./tongue.mjs";

/** @type {Record<string | number, string>} */
const REFUSALS = toSay({
  10: "it is no record", 11: "a number or a text is outside its limits", 12: "a name is none",
  25: "there is no such table", 26: "the table is of another kind", 40: "there is no such row",
  41: "there is no such photo", 42: "something is still related to it", 44: "there is no such relation",
  45: "it is related already", 46: "it isn't related",
});
/** @type {Record<string | number, string>} */
const FAULTS = toSay({
  90: "the program was refused memory", 91: "the file could not be read or written",
  92: "the program has to be started again",
});
/** @type {Record<string | number, string>} */
const STATUSES = toSay({
  400: "the package got a part of it only",
  403: "the program lets no page of this address in: open the address that it prints",
  404: "its key has changed: open the address that the program printed last",
  405: "the program takes no such request", 411: "the program wants the length of what is sent",
  413: "it is too large for the package", 415: "the program takes no such records",
});
/** @type {Record<string | number, string>} */
const OF = toSay({
  row: "the row", media: "the photo", map: "the photo's relation to the row", "row-drop": "to remove the row",
  "media-drop": "to remove the photo", "map-drop": "to take the photo off the row",
});
const REFUSED = toSay("it is refused"), REFUSAL_KEPT = /^([^:]+): (.+) \((\d+)\)$/;
// By its word, with which numbers a record is as it should be: it stands already, or is gone already.
/** @type {Record<string, number[]>} */
const STANDS = { map: [45], "map-drop": [46], "row-drop": [40], "media-drop": [41, 42] };
const LINE = /^([1-9][0-9]*) (?:ok|(refused|fault) ([0-9]+)(?: [0-9]+)*)$/;

export const STRANGER = toSay("another program has the port");
export const CUT = toSay("the answer was cut short");

/**
 * An answer as it came: its status, its type (null where it tells none), whether it leads elsewhere, and its text.
 * @typedef {{ status: number, type: string | null, leads: boolean, text: string }} Answer
 */

/**
 * Whether an answer is the package's, with a body of a type.
 * @param {Omit<Answer, "text">} answer
 * @param {string} wanted
 */
export const isThere = ({ status, type, leads }, wanted) => !leads && status === 200 && type === wanted;

/**
 * Whether an answer is the program's that says no: such have neither a type nor a body.
 * @param {Answer} answer
 */
export const isNo = ({ status, type, leads, text }) => !leads && status in STATUSES && type === null && text === "";

/**
 * Whether an answer is the program's that ends the day.
 * @param {Answer} answer
 */
export const isEnd = ({ status, type, leads, text }) => !leads && status === 200 && type === null && text === "";

/** @type {(it: unknown) => boolean} */
const isText = it => typeof it === "string";

/** @type {(it: unknown) => boolean} */
const isExtent = it => it === undefined || Array.isArray(it) && it.length === 4 && it.every(Number.isFinite);

/**
 * Whether all items of a list have parts as they are asked for.
 * @param {unknown} list
 * @param {Record<string, (it: unknown) => boolean>} parts
 */
const isListOf = (list, parts) => Array.isArray(list) && list.every(it => typeof it === "object" && it !== null
  && Object.entries(parts).every(([name, holds]) => holds(it[name])));

/**
 * Whether a body is the list of a package's tables, of which the page's is one.
 * @param {any} body
 */
export const isContents = body => isListOf(body, {
  table: isText, kind: isText, identifier: isText, last_change: isText, extent: isExtent,
}) && body.length > 0 && body.every((/** @type {any} */ it) => it.extent === undefined || Number.isInteger(it.srs_id));

/**
 * Whether a body is a list of rows from a number on.
 * @param {any} body
 * @param {number} first
 */
export const isRows = (body, first) => isListOf(body, { id: Number.isInteger, title: isText, note: isText,
  amount: Number.isInteger }) && body.every((/** @type {any} */ it, /** @type {number} */ at) =>
  it.id >= (at ? body[at - 1].id + 1 : first));

/**
 * Whether a body tells what an item is related to.
 * @param {any} body
 */
export const isRelated = body => isListOf(body, { id: Number.isInteger, table: isText, mapping: isText, name: isText });

/**
 * Whether a text is the front of a line that answers a record.
 * @param {string} text
 * @param {number} number
 */
function isFront(text, number) {
  const head = `${number} `, rest = text.slice(head.length);
  if (!text.startsWith(head)) return head.startsWith(text);
  return ["ok", "refused ", "fault "].some(it => it.startsWith(rest)) || /^(refused|fault) [0-9 ]+$/.test(rest);
}

/**
 * The lines of an answer to so many records; null where another program wrote them: each line has the record's number,
 * and nothing is behind the last, or behind a fault.
 * @param {string} text
 * @param {number} count
 */
export function linesOf(text, count) {
  const lines = text.split("\n"), front = lines.pop() ?? "", ended = lines.findIndex(it => / fault /.test(it));
  const isOver = lines.length === count || ended >= 0;
  if (lines.length > count || ended >= 0 && ended !== lines.length - 1) return null;
  if (lines.some((it, at) => Number(LINE.exec(it)?.[1]) !== at + 1)) return null;
  return (isOver ? front === "" : isFront(front, lines.length + 1)) ? lines : null;
}

/**
 * What the answer to a list of records comes to: done ({}), refused and why, or to be sent again and why.
 * @param {(string | number)[][]} records
 * @param {Answer} answer
 * @returns {{ again?: string, refused?: string, lines: string[] }}
 */
export function judged(records, answer) {
  if (isNo(answer)) {
    const why = STATUSES[answer.status];
    return answer.status === 413 ? { refused: why, lines: [] } : { again: phrase(why), lines: [] };
  }
  const lines = isThere(answer, "text/plain") ? linesOf(answer.text, records.length) : null;
  if (!lines) return { again: phrase(STRANGER), lines: [] };
  for (const [at, line] of lines.entries()) {
    const [, , word, number] = LINE.exec(line) ?? [], [name] = records[at];
    if (word === "fault") {
      return { again: phrase(FAULTS[number] ?? "the program tells fault {0}", number), lines };
    }
    if (word === "refused" && !STANDS[name]?.includes(Number(number))) {
      return { refused: `${OF[name] ?? name}: ${REFUSALS[number] ?? REFUSED} (${number})`, lines };
    }
  }
  return lines.length < records.length ? { again: phrase(CUT), lines } : { lines };
}

/**
 * A refusal, which is kept in English, in the crew's language.
 * @param {string} refused
 */
export function wordsOfRefusal(refused) {
  const [, of, why, number] = REFUSAL_KEPT.exec(refused) ?? [];
  return of ? `${phrase(of)}: ${phrase(why)} (${number})` : phrase(refused);
}
