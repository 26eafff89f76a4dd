// What is said of an act, in the words of docs/PAGE.md.

import { wordsOfRefusal } from "./answers.mjs";
import { partsOf } from "./changes.mjs";
import { isBehind } from "./steps.mjs";
import { phrase, toSay } from "./tongue.mjs";

/**
 * @typedef {import("./records.mjs").Act} Act
 */

const WORDS_OF_KEY = toSay("was saved under another key of this package: send it here, or open the address that it " +
  "was saved at");
/** @type {Record<string, string>} */
const PARTS_IN_WORDS = toSay({ title: "the title", place: "the place", note: "the note", amount: "the amount" });
/** @type {Record<string, string>} */
const BARE_PARTS = toSay({ title: "title", place: "place", note: "note", amount: "amount" });
/** @type {Record<string, string>} */
const WITH_FILE = toSay({ photo: "{0}, with a photo", PDF: "{0}, with a PDF", sound: "{0}, with a sound",
  shape: "{0}, with a shape", track: "{0}, with a track" });
/** @type {Record<string, string>} */
const MORE_FILES = toSay({ photo: "{0}: one more photo", PDF: "{0}: one more PDF", sound: "{0}: one more sound",
  shape: "{0}: one more shape", track: "{0}: one more track" });
/** @type {Record<string, string>} */
const TAKEN_OFF = toSay({ photo: "take photo {0} off {1}", PDF: "take PDF {0} off {1}", sound: "take sound {0} off {1}",
  shape: "take shape {0} off {1}", track: "take track {0} off {1}" });

/**
 * Names in a row, as in "the title, the note and the amount".
 * @param {string[]} names
 */
function namesOf(names) {
  const all = names.map(it => phrase(PARTS_IN_WORDS[it])), last = all.pop() ?? "";
  return all.length ? phrase("{0} and {1}", all.join(", "), last) : last;
}

/**
 * What an act does, which is kept in English, in the crew's language. A title may read like an act: only what its
 * records do is told.
 * @param {Pick<Act, "what" | "records" | "dropped" | "told">} act
 * @returns {string}
 */
export function nameOfAct({ what, records, dropped, told }) {
  const does = dropped === undefined ? records[0]?.[0] : "row-drop";
  const [, back] = does === "map" && /^put back what belongs to it \(([^]*)\)$/.exec(what) || [];
  const removal = { what: back ?? "", records, dropped: 0 };
  if (back !== undefined) return phrase("put back what belongs to it ({0})", nameOfAct(removal));
  const [, of, off, from] = does === "map-drop" && /^take (\w+) (\d+) off ([^]*)$/.exec(what) || [];
  if (Object.hasOwn(TAKEN_OFF, of ?? "")) return phrase(TAKEN_OFF[of], off, from);
  const [, gone] = /-drop$/.test(String(does)) && /^remove ([^]*)$/.exec(what) || [];
  if (gone !== undefined) return phrase("remove {0}", gone);
  const brings = Boolean(told) || records.some(([word]) => word === "media");
  const [, name, how, noun] = brings && /^([^]*)(, with a|: one more) (photo|PDF|sound|shape|track)$/.exec(what) || [];
  return noun ? phrase((how === ", with a" ? WITH_FILE : MORE_FILES)[noun], name) : what;
}

/**
 * Why another's change keeps an act from the package.
 * @param {Act} act
 */
function wordsApart({ apart, dropped, saw }) {
  if (!apart?.theirs) return phrase("changed meanwhile: the row was removed");
  if (saw === undefined) return phrase("an older page saved this, which didn't keep what its form showed");
  if (dropped) return phrase("changed meanwhile: the row that you remove isn't as you saw it");
  return saw ? phrase("changed meanwhile: you and another have changed {0}", namesOf(apart.parts))
    : phrase("changed meanwhile: another row has this number");
}

/**
 * What an act waits for.
 * @param {Act} act
 * @param {Act[]} acts all, in their order
 * @param {string} key
 */
export function wordsOf(act, acts, key) {
  if (act.told) {
    return phrase("in the package, joined: {0} as another changed it, the rest as you did", namesOf(act.told.parts));
  }
  if (act.refused) return phrase("refused: {0}", wordsOfRefusal(act.refused));
  if (act.apart) return wordsApart(act);
  if (act.at !== key) return phrase(WORDS_OF_KEY);
  return phrase(isBehind(act, acts, key) ? "waits for the one above of its row" : "waits to be sent");
}

/**
 * Both sides of some parts of a row.
 * @param {import("./changes.mjs").Row} mine
 * @param {import("./changes.mjs").Row} theirs
 * @param {string[]} parts
 * @param {number | null} only the system of all maps
 */
export function bothSides(mine, theirs, parts, only) {
  const [here, there] = [partsOf(mine, only), partsOf(theirs, only)];
  return parts.map(it => ({ part: phrase(BARE_PARTS[it]), mine: String(here[it]), theirs: String(there[it]) }));
}
