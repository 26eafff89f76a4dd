// What a row was before it was changed: rows of the table 'history' by docs/FORMATS.md, section 12, written before the
// row in one list, once, wherever an answer is cut.

import assert from "node:assert/strict";
import { test } from "node:test";

import {
  isPastTable, numbersOfPast, pastAgain, pastOf, pastOfTable, recordsOfPast, recordsOfRemoved, recordsToLeave,
  rowBefore, versionsOf,
} from "../../../tools/page/past.mjs";
import { actsOfForm, removalOf } from "../../../tools/page/records.mjs";
import { step, wayOf, withMine } from "../../../tools/page/steps.mjs";
import { Desk } from "./desk.mjs";

const WAS = { id: 7, title: "Stone", note: '@1:10/20 by the books by="North 2" at=2026-06-15T12:00:00Z', amount: 3 };
const NOW = { ...WAS, title: "Stone 7" };
const RELATIONS = [
  { mapping: "spots_photos", base: "spots", related: "photos", name: "media" },
  { mapping: "z_spots", base: "spots", related: "history", name: "simple_attributes" },
  { mapping: "a_spots", base: "spots", related: "history", name: "simple_attributes" },
  { mapping: "owners_spots", base: "owners", related: "spots", name: "simple_attributes" },
];

test("where the office keeps what rows were", () => {
  assert.equal(pastOfTable(RELATIONS, "spots"), "a_spots", "the first by name");
  assert.deepEqual(["owners", "photos", "history"].map(it => pastOfTable(RELATIONS, it)), [null, null, null]);
  assert.equal(pastOfTable([{ ...RELATIONS[1], name: "media" }], "spots"), null);
  assert.deepEqual([isPastTable(RELATIONS, "history"), isPastTable(RELATIONS, "spots")], [true, false]);
  assert.equal(isPastTable(RELATIONS.slice(0, 1), "history"), false, "a table of that name that nothing leads to");
});

test("a row of the history tells of which row it is, and gives it back letter by letter", () => {
  const past = pastOf("spots", WAS, "h", 99);
  const note = '@1:10/20 by the books by="North 2" at=2026-06-15T12:00:00Z of=spots/7';
  assert.deepEqual(past, { mapping: "h", row: { id: 99, title: "Stone", note, amount: 3 } });
  assert.deepEqual(recordsOfPast(past, 7), [["row", "history", 99, "Stone", note, 3], ["map", "h", 7, 99]]);
  assert.deepEqual(recordsOfRemoved(past), [["row", "history", 99, "Stone", note, 3]]);
  assert.deepEqual(rowBefore(past.row, "spots", 7), WAS);
  for (const text of ["", " ", "a ", "of=spots/7", "x of=owners/1", "x\nof=spots/7 y"]) {
    const row = { ...WAS, note: text };
    assert.deepEqual(rowBefore(pastOf("spots", row, "h", 9).row, "spots", 7), row, JSON.stringify(text));
  }
});

test("a row whose number the office has changed since is given back without the word too", () => {
  assert.deepEqual(rowBefore(pastOf("spots", WAS, "h", 99).row, "spots", 70), { ...WAS, id: 70 });
  const other = pastOf("owners", WAS, "h", 99).row;
  assert.equal(rowBefore(other, "spots", 7).note, other.note, "a word of another table is somebody's own");
});

test("a note that has no room for more stays as it is", () => {
  const row = { ...WAS, note: "é".repeat(494) };  // 988 bytes, and 11 of the word with its space
  assert.ok(pastOf("spots", row, "h", 9).row.note.endsWith(" of=spots/7"));
  const long = { ...WAS, note: `${row.note}ab` };
  assert.deepEqual(pastOf("spots", long, "h", 9).row.note, long.note);
  assert.deepEqual(rowBefore(pastOf("spots", long, "h", 9).row, "spots", 7), long);
});

test("what was kept before a sending stands again, as long as it is of the same row", () => {
  const kept = pastOf("spots", WAS, "h", 9);
  assert.equal(pastAgain(kept, pastOf("spots", WAS, "h", 10)), kept);
  assert.equal(pastAgain(kept, pastOf("spots", NOW, "h", 10)).row.id, 10);
  assert.equal(pastAgain(null, kept), kept);
  assert.equal(pastAgain(kept, pastOf("spots", WAS, "g", 10)).row.id, 10, "another mapping");
});

/**
 * Sends an act as often as it takes, each answer cut behind so many lines, and a half where one record more was done;
 * answers what is left of it.
 */
function sent(desk, first, cuts, numbers = [101, 102, 103, 104]) {
  let act = first;
  for (const cut of cuts) {
    let way = wayOf(act, 1, "h");
    while (way.asks) {
      way = step(way, eventOf(desk, way, cut, numbers));
      for (const it of way.effects) if (it.does === "keep") [act] = it.next;
    }
  }
  return act;
}

function eventOf(desk, { asks, act, sent: { records } }, cut, numbers) {
  const id = act.row?.id ?? act.dropped;
  if (asks === "row") return { is: "row", row: desk.rows.get(id) ?? null, fresh: numbers.shift() };
  if (asks === "related") return { is: "related", related: desk.relatedOf(id) };
  const lines = desk.answer(records, cut && Math.ceil(cut)).split("\n").slice(0, cut && Math.floor(cut));
  const text = cut === undefined ? lines.join("\n") : lines.map(it => `${it}\n`).join("");
  return { is: "answer", answer: { status: 200, type: "text/plain", leads: false, text } };
}

const deskWith = row => Object.assign(new Desk(), { rows: new Map([[row.id, row]]) });

const changed = (row, saw) => ({ number: 1, saved: 2, at: "k",
  ...actsOfForm({ table: "spots", row, saw, isSame: false, photos: [] })[0] });

test("a change that is cut at each line writes what the row was once", () => {
  for (const cuts of [[], [0], [0.5], [1], [1.5], [2], [2.5], [1, 1], [2.5, 0, 1], [2.5, 2.5], [0, 0.5, 1.5]]) {
    const desk = deskWith(WAS), left = sent(desk, changed(NOW, WAS), [...cuts, undefined]);
    assert.equal(left, undefined, `what is left, cut at ${cuts}`);
    assert.deepEqual(desk.rows.get(7), NOW, "the row");
    assert.deepEqual([...desk.past.values()], [pastOf("spots", WAS, "h", 101).row], `cut at ${cuts}`);
    assert.deepEqual([...desk.pasts], ["7 101"]);
  }
});

test("a new row has no history, nor has one that is saved as it stands", () => {
  const desk = new Desk();
  sent(desk, changed(NOW, null), [0.5, undefined]);
  sent(desk, changed({ ...NOW, note: NOW.note.replace("12:", "13:") }, NOW), [undefined]);
  assert.deepEqual([desk.rows.get(7).note.includes("13:"), desk.past.size, desk.pasts.size], [true, 0, 0]);
});

test("what is kept is the row that is written over, with what another has changed meanwhile", () => {
  const theirs = { ...WAS, amount: 4 }, desk = deskWith(theirs);
  sent(desk, changed(NOW, WAS), [undefined]);
  assert.deepEqual(desk.rows.get(7), { ...NOW, amount: 4 });
  assert.deepEqual(rowBefore([...desk.past.values()][0], "spots", 7), theirs);
});

test("a cut answer, and another's change behind it: no version goes that was kept", () => {
  const desk = deskWith(WAS), act = sent(desk, changed(NOW, WAS), [2.5]);  // all is written, and nobody was told
  desk.rows.set(7, { ...NOW, title: "Theirs" });
  const apart = sent(desk, act, [undefined], [201]);
  assert.deepEqual(apart.apart.parts, ["title"]);
  sent(desk, withMine(apart, 1), [undefined], [202]);
  const told = [...desk.past.values()].map(it => rowBefore(it, "spots", 7).title);
  assert.deepEqual([told, desk.rows.get(7).title], [["Stone", "Theirs"], "Stone 7"]);
  assert.equal(desk.pasts.size, 2);
});

test("a row that is removed is told by a row of the history that nothing leads to", () => {
  for (const cuts of [[], [0], [0.5], [1], [1.5]]) {
    const desk = deskWith(WAS);
    sent(desk, changed(NOW, WAS), [undefined]);
    const removal = { number: 3, saved: 4, at: "k", ...removalOf("spots", NOW) };
    const rest = sent(desk, removal, [...cuts, undefined], [201, 202]);
    assert.deepEqual(rest.records.map(it => it.slice(0, 3)), [["row", "history", 201]], `behind it, cut at ${cuts}`);
    sent(desk, rest, [undefined]);
    const titles = [...desk.past.values()].map(it => [it.title, it.note.endsWith(" of=spots/7")]);
    assert.deepEqual([desk.rows.size, desk.pasts.size, titles], [0, 0, [["Stone", true], ["Stone 7", true]]]);
  }
});

test("a removal that is refused tells nothing, and once where it is sent again", () => {
  const desk = deskWith(WAS);
  sent(desk, changed(NOW, WAS), [undefined]);
  desk.held.add(7);
  const act = sent(desk, { number: 3, saved: 4, at: "k", ...removalOf("spots", NOW) }, [undefined], [201]);
  assert.match(act.refused, /still related/);
  assert.equal(desk.past.size, 1);
  desk.held.delete(7);
  const rest = sent(desk, { ...act, refused: undefined, records: [] }, [undefined], [202]);
  assert.deepEqual(rest.records.map(it => it[2]), [202]);
});

test("without the table an act is sent as ever", () => {
  const act = changed(NOW, WAS), way = step(wayOf(act, 1), { is: "row", row: WAS, fresh: 9 });
  assert.deepEqual([way.sent, way.effects, way.asks], [act, [], "run"]);
  const removal = { number: 3, ...removalOf("spots", WAS) };
  const asked = step(step(wayOf(removal, 1), { is: "row", row: WAS, fresh: 9 }), { is: "related", related: [] });
  assert.deepEqual([asked.sent.records, asked.sent.then], [[["row-drop", "spots", 7]], []]);
});

test("the records that an act leaves as a file have what was kept of its row", () => {
  const past = pastOf("spots", WAS, "h", 9), act = changed(NOW, WAS);
  assert.deepEqual(recordsToLeave(act), act.records);
  assert.deepEqual(recordsToLeave({ ...act, past }), [...recordsOfPast(past, 7), ...act.records]);
});

test("versions, the newest first, each with what differs from what came behind it", () => {
  const related = [{ id: 3, mapping: "h" }, { id: 9, mapping: "h" }, { id: 5, mapping: "m" }];
  assert.deepEqual(numbersOfPast(related, "h"), [9, 3]);
  const first = { ...WAS, amount: 1 }, list = [WAS, WAS, first].map((row, at) => ({ made: 30 - at, row }));
  const told = versionsOf(NOW, list, 1).map(({ made, parts }) => [made, parts]);
  assert.deepEqual(told, [[30, ["title"]], [28, ["amount"]]], "what two crews kept of one version stands once");
  assert.deepEqual(versionsOf(WAS, list.slice(0, 2), 1), [], "a version that stands again");
  assert.deepEqual(versionsOf(null, list.slice(0, 1), 1)[0].parts, ["title", "place", "note", "amount"]);
});
