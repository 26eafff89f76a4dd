// The way of an act to the package, step by step: a function from where it is and what came to where it is then and
// what is to be done. It asks nothing and keeps nothing itself.

import { judged } from "./answers.mjs";
import { isSameRow, joined, settled } from "./changes.mjs";
import { pastAgain, pastOf, recordsOfPast, recordsOfRemoved } from "./past.mjs";
import { putBack, rowRecord, takenOff, withRecords } from "./records.mjs";

/**
 * @typedef {import("./records.mjs").Act} Act
 * @typedef {import("./changes.mjs").Row} Row
 * @typedef {{ does: "keep", act: Act, next: Act[] } | { does: "stands", act: Act } | { does: "reread" }
 *   | { does: "fails", why: string, isSilent: boolean }} Effect
 * @typedef {import("./records.mjs").Past} Past
 * @typedef {{ act: Act, asks: "row" | "related" | "run" | null, effects: Effect[], only: number | null,
 *   mapping: string | null, past: Past | null, sent: Act }} Way
 * @typedef {{ is: "row", row: Row | null | undefined, fresh?: number }} Stood
 * @typedef {{ is: "none", why: string, isSilent: boolean } | Stood | { is: "related", related: any[] | null }
 *   | { is: "answer", answer: import("./answers.mjs").Answer }} Event
 */

/**
 * Whether an act is sent as it is: nobody has to say what becomes of it, and it was saved under this key.
 * @param {Act} act
 * @param {string} key
 */
export const isOpen = (act, key) => !act.told && !act.refused && !act.apart && act.at === key;

/**
 * @param {Act} act
 */
export const changesRow = act => Boolean(act.row || act.dropped);

/**
 * The number of the row that an act changes.
 * @param {Act} act
 */
export const rowIn = act => act.row?.id ?? act.dropped ?? 0;

/**
 * Whether an act waits for an earlier one of its row, of which somebody has to say what becomes of it.
 * @param {Act} act
 * @param {Act[]} acts all, in their order
 * @param {string} key
 */
export const isBehind = (act, acts, key) => changesRow(act) && acts.some(it => changesRow(it) && !isOpen(it, key)
  && it.table === act.table && rowIn(it) === rowIn(act) && (it.number ?? 0) < (act.number ?? 0));

/**
 * The act that is sent next. Those that failed are passed over, with all that is behind them of their rows.
 * @param {Act[]} acts
 * @param {string} key
 * @param {Set<number | undefined>} [passed] those that failed, by their numbers of saving
 */
export function nextOf(acts, key, passed = new Set()) {
  const failed = acts.filter(it => passed.has(it.saved));
  /** @type {(it: Act) => boolean} */
  const isPassed = it => failed.some(other => other.table === it.table && other.of === it.of
    && (other.number ?? 0) <= (it.number ?? 0));
  return acts.find(it => isOpen(it, key) && !isPassed(it) && !isBehind(it, acts, key));
}

/**
 * Where an act begins its way: one that changes a row asks first how that stands.
 * @param {Act} act as the outbox has it
 * @param {number | null} only the system of all maps
 * @param {string | null} [mapping] what relates the row to what it was before, where that is kept
 * @returns {Way}
 */
export const wayOf = (act, only, mapping = null) =>
  ({ act, only, mapping, past: null, sent: act, effects: [], asks: changesRow(act) ? "row" : "run" });

/**
 * The next step of an act's way; where it asks nothing the way is over.
 * @param {Way} way
 * @param {Event} event
 * @returns {Way}
 */
export function step(way, event) {
  switch (event.is) {
    case "row": return behindRow(way, event);
    case "related": return behindRelated(way, event.related);
    case "answer": return behindAnswer(way, event.answer);
    default: return over(way, { does: "fails", why: event.why, isSilent: event.isSilent });
  }
}

/** @type {(way: Way, ...effects: Effect[]) => Way} */
const over = (way, ...effects) => ({ ...way, asks: null, effects });

/** @type {(way: Way, asks: Way["asks"], sent?: Act, ...effects: Effect[]) => Way} */
const goesOn = (way, asks, sent = way.sent, ...effects) => ({ ...way, asks, sent, effects });

/**
 * Behind the row as the package has it: null where there is none, undefined where there is no such table; with a number
 * for a row of the history.
 * @param {Way} way
 * @param {Stood} stood
 * @returns {Way}
 */
function behindRow(way, { row: theirs, fresh = 0 }) {
  const { act } = way;
  if (!act.row) return behindRemoved(way, theirs, fresh);
  if (theirs === undefined) return goesOn(way, "run");
  const verdict = joined(act.saw, act.row, theirs, way.only);
  if (verdict.is === "apart") return setApart(way, theirs, verdict.parts);
  const isTold = verdict.is === "joined" && verdict.parts.length > 0;
  const told = isTold && theirs ? { parts: verdict.parts, theirs, mine: act.row } : undefined;
  const sent = verdict.is === "joined" ? { ...withRow(act, verdict.row), told } : act;
  return withPast(way, sent, pastBehind(way, verdict.row, theirs, fresh));
}

/**
 * What an act has to write of the row in whose place its own comes; null where that is kept nowhere, or none is. Where
 * the package has the act's own row already it is what was kept before that was sent.
 * @param {Way} way
 * @param {Row} row
 * @param {Row | null} theirs
 * @param {number} fresh
 */
function pastBehind({ act, mapping }, row, theirs, fresh) {
  if (!mapping || !theirs) return null;
  return isSameRow(row, theirs) ? act.past ?? null : pastAgain(act.past, pastOf(act.table, theirs, mapping, fresh));
}

/**
 * An act that is sent, with what its row was in front. That is kept before it is sent, so that a second sending has the
 * same records.
 * @param {Way} way
 * @param {Act} sent
 * @param {Past | null} past
 * @returns {Way}
 */
function withPast(way, sent, past) {
  if (!past) return goesOn(way, "run", sent);
  const { act } = way, full = { ...sent, records: [...recordsOfPast(past, rowIn(act)), ...sent.records] };
  if (past === act.past) return goesOn(way, "run", full);
  const kept = { ...act, past };
  return { ...goesOn(way, "run", full, { does: "keep", act, next: [kept] }), act: kept };
}

/**
 * @param {Way} way
 * @param {Row | null | undefined} theirs
 * @param {number} fresh
 * @returns {Way}
 */
function behindRemoved(way, theirs, fresh) {
  const { act, mapping } = way;
  if (theirs && !isSameRow(theirs, act.saw)) return setApart(way, theirs, []);
  if (act.records.length) return goesOn(way, "run");
  return { ...goesOn(way, "related"), past: mapping && theirs ? pastOf(act.table, theirs, mapping, fresh) : null };
}

/**
 * An act whose row another has changed meanwhile: somebody has to say what becomes of it. What a removal may have taken
 * off its row before it was cut is put back.
 * @param {Way} way
 * @param {Row | null} theirs
 * @param {string[]} parts
 * @returns {Way}
 */
function setApart(way, theirs, parts) {
  const { act } = way, taken = act.dropped ? act.records.filter(([word]) => word === "map-drop") : [];
  const next = { ...act, apart: { theirs, parts }, ...act.dropped ? { records: [], then: undefined } : {} };
  return over(way, { does: "keep", act, next: [next, ...putBack(act, taken)] }, { does: "reread" });
}

/**
 * Behind what leads from the row of a removal: null where the package doesn't tell it, since the row is gone.
 * @param {Way} way
 * @param {any[] | null} related
 * @returns {Way}
 */
function behindRelated(way, related) {
  const full = withRecords(way.act, related ?? [], way.past ? recordsOfRemoved(way.past) : []);
  if (!related) return goesOn(way, "run", full);
  return { ...goesOn(way, "run", full, { does: "keep", act: way.act, next: [full] }), act: full };
}

/**
 * @param {Way} way
 * @param {import("./answers.mjs").Answer} answer
 * @returns {Way}
 */
function behindAnswer(way, answer) {
  const { act, sent } = way, { again, refused, lines } = judged(sent.records, answer);
  if (again) return over(way, { does: "fails", why: again, isSilent: false });
  if (refused) {
    const next = [{ ...act, refused }, ...putBack(act, takenOff(sent, lines))];
    return over(way, { does: "keep", act, next }, { does: "reread" });  // other records of its list may have been done
  }
  const { number, at, saved, table, of, what, then } = sent;
  const rest = then?.length ? [{ number, at, saved, table, of, what, records: then }] : [];
  return over(way, { does: "stands", act: sent }, { does: "keep", act, next: [...rest, ...noteOfJoining(sent)] });
}

/**
 * What stays in sight of an act that stands joined with what another changed, until somebody has seen it. A page of
 * before shows it as refused.
 * @param {Act} sent
 * @returns {Act[]}
 */
function noteOfJoining({ at, table, of, what, told }) {
  const refused = "it stands, joined with what another changed";
  return told ? [{ at, table, of, what, records: [], told, refused }] : [];
}

/**
 * An act with another row.
 * @param {Act} act
 * @param {Row} row
 * @returns {Act}
 */
const withRow = (act, row) =>
  ({ ...act, row, records: act.records.map(it => it[0] === "row" ? rowRecord(act.table, row) : it) });

/**
 * An act that another's change met, as it goes on where the form's side of what both changed is wanted: in the
 * knowledge of the other.
 * @param {Act} act
 * @param {number | null} only the system of all maps
 * @returns {Act}
 */
export function withMine(act, only) {
  const theirs = act.apart?.theirs ?? null, known = { ...act, saw: theirs, apart: undefined };
  return act.row ? withRow(known, settled(act.saw, act.row, theirs, only, true)) : known;
}

/**
 * What is left of an act that another's change met where the other's side of what both changed is wanted: what the form
 * alone changed, and its photos; nothing where the row is gone.
 * @param {Act} act
 * @param {number | null} only the system of all maps
 * @returns {Act[]}
 */
export function withTheirs(act, only) {
  const theirs = act.apart?.theirs;
  if (!act.row || !theirs) return [];
  const row = settled(act.saw, act.row, theirs, only, false), rest = act.records.filter(([word]) => word !== "row");
  if (!isSameRow(row, theirs)) return [withRow({ ...act, saw: theirs, apart: undefined }, row)];
  const left = { ...act, row: undefined, saw: undefined, apart: undefined, past: undefined, records: rest };
  return rest.length ? [left] : [];
}
