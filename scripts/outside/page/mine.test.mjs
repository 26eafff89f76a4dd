// A place that the device tells: how exact and how old it is, and its words in a note.

import assert from "node:assert/strict";
import { test } from "node:test";

import { joined, partsOf, settled } from "../../../tools/page/changes.mjs";
import { ageOf, ageTold, fixOf, hasMoved, withinTold, wordsOfFix } from "../../../tools/page/fixes.mjs";
import { columnsIn, columnOrder } from "../../../tools/page/notewords.mjs";
import { digitsOf, ownHeight, parted, withTold, wordsTold } from "../../../tools/page/told.mjs";
import { bothSides } from "../../../tools/page/words.mjs";

const AT = { ticks: 1000, clock: 5_000_000 };
const COORDS = { longitude: 9.005, latitude: 50.552, accuracy: 4.2 };

test("a place is as old as the clock says that went on", () => {
  const fix = fixOf(COORDS, AT);
  assert.deepEqual(fix, { ...COORDS, height: null, heightWithin: null, came: AT, by: "device", words: "" });
  assert.equal(fixOf({ ...COORDS, altitude: 181.5, altitudeAccuracy: NaN }, AT).height, 181.5);
  assert.equal(fixOf({ ...COORDS, accuracy: undefined }, AT).accuracy, null);
  for (const [ticks, clock, age] of [[1000, 5_000_000, 0], [3500, 5_002_500, 2.5], [1200, 5_600_000, 600],
    [4000, 4_000_000, 3], [1000, 0, 0]]) {
    assert.equal(ageOf(fix, { ticks, clock }), age, `${ticks} ${clock}`);
  }
});

test("how exact and how old a place is, in words", () => {
  for (const [accuracy, words] of [[4.2, "within 5 m"], [5, "within 5 m"], [1, "within 1 m"], [0.02, "within 0.02 m"],
    [0.07, "within 0.07 m"], [0.0141, "within 0.02 m"], [0, "within 0.00 m"], [null, "how exact isn't told"]]) {
    assert.equal(withinTold(accuracy), words);
  }
  for (const [age, words] of [[0, ""], [10, ""], [10.5, "10 s old"], [119, "119 s old"], [120, "2 min old"],
    [7199, "119 min old"], [7200, "2 h old"]]) {
    assert.equal(ageTold(age), words, age);
  }
  assert.equal(wordsOfFix(null, Infinity), "asking the device ..");
  assert.equal(wordsOfFix(fixOf(COORDS, AT), 3), "within 5 m");
  assert.equal(wordsOfFix({ ...fixOf(COORDS, AT), words: "RTK fixed" }, 13), "RTK fixed, within 5 m, 13 s old");
});

test("a list goes by another place once that is farther off than it may be", () => {
  const at = (east, north) => ({ east, north });
  assert.equal(hasMoved(null, at(0, 0), 5), true);
  assert.equal(hasMoved(at(0, 0), at(3, 4), 5), false);
  assert.equal(hasMoved(at(0, 0), at(3, 4.1), 5), true);
  assert.equal(hasMoved(at(0, 0), at(0.5, 0.5), 0.02), false);
  assert.equal(hasMoved(at(0, 0), at(4, 0), null), true);
});

test("what the device told, as words", () => {
  const words = (accuracy, height, age = 0, hasHeight = false) => wordsTold({ accuracy, height }, age, hasHeight);
  assert.equal(words(4.2, null), "acc=4.2 age=0");
  assert.equal(words(4.2, 181.504, 2.9), "acc=4.2 h=181.5 age=2");
  assert.equal(words(0.0282, 181.5046), "acc=0.028 h=181.505 age=0");
  assert.equal(words(0.5, -0.001), "acc=0.5 h=0 age=0");
  assert.equal(words(12.34, -1.005), "acc=12.3 h=-1 age=0");
  assert.equal(words(4.2, 181.5, 0, true), "acc=4.2 age=0");
  assert.equal(words(null, 181.5), "", "where nobody knows how exact it is");
  assert.deepEqual([digitsOf(0.02), digitsOf(0.1), digitsOf(4), digitsOf(null)], [3, 2, 2, 2]);
  for (const it of [0, 1e-9, 0.3, 1, 99999999]) assert.match(words(it, 1e-7), /^acc=\d+(\.\d+)? h=0 age=0$/);
});

test("what the device told is parted from the rest of a note, letter by letter", () => {
  for (const [note, told, rest] of [
    ["under the oak acc=4.2 h=181.5 age=0", "acc=4.2 h=181.5 age=0", "under the oak"],
    ["acc=4.2", "acc=4.2", ""],
    ["acc=4.2 age=3 under the oak", "acc=4.2 age=3", "under the oak"],
    ["a acc=4.2 h=1\nb=2", "acc=4.2 h=1", "a\nb=2"],
    ["h=181.5 by the books acc=4.2 age=0", "acc=4.2 age=0", "h=181.5 by the books"],
    ["h=181.5 acc=4.2 age=0 h=3", "acc=4.2 age=0", "h=181.5 h=3"],
    ["acc=4.2 age=0 h=3", "acc=4.2 age=0", "h=3"],
    ["acc=4.2  h=3", "acc=4.2", "h=3"],
    ["acc=4,2 h=3 age=0", "", "acc=4,2 h=3 age=0"],
    ["acc=good h=3", "", "acc=good h=3"],
    ["  two  spaces ", "", "  two  spaces "],
    ["h=181.5", "", "h=181.5"],
    ['say="acc=4.2 h=3" x', "", 'say="acc=4.2 h=3" x'],
    ["acc=4.2 h=tall", "acc=4.2", "h=tall"],
    ["", "", ""],
  ]) assert.deepEqual(parted(note), { told, rest }, note);
  assert.equal(withTold("under the oak acc=4.2 h=181.5 age=0", "acc=3 age=1"), "under the oak acc=3 age=1");
  assert.equal(withTold("", "acc=3 age=1"), "acc=3 age=1");
  assert.equal(withTold("oak acc=4.2", ""), "oak");
  assert.equal(ownHeight("oak h=181.5 acc=4.2 age=0"), "h=181.5");
  assert.equal(ownHeight("oak acc=4.2 h=181.5 age=0"), "");
});

test("what the device told goes with its place where two changed a row", () => {
  const row = (title, note) => ({ id: 1, title, note, amount: 0 });
  const saw = row("a", "@7:1/2 oak"), by = row("a", "@7:5/6 oak acc=4.2 age=0"), only = null;
  assert.deepEqual(partsOf(by, only), { title: "a", place: "@7:5/6 acc=4.2 age=0", note: "oak", amount: 0 });
  const named = row("a", "@7:1/2 old oak"), verdict = joined(saw, by, named, only);
  assert.deepEqual(verdict, { is: "joined", row: row("a", "@7:5/6 old oak acc=4.2 age=0"), parts: ["note"] });
  assert.deepEqual(joined(saw, named, by, only).row.note, "@7:5/6 old oak acc=4.2 age=0");
  const tapped = row("a", "@7:8/9 oak"), both = joined(saw, by, tapped, only);
  assert.deepEqual(both, { is: "apart", parts: ["place"] });
  assert.equal(settled(saw, by, tapped, only, false).note, "@7:8/9 oak");
  assert.equal(settled(saw, by, tapped, only, true).note, by.note);
  const mine = row("a", "@7:5/6 my oak acc=4.2 age=0"), theirs = row("b", "@7:8/9 oak");
  assert.equal(settled(saw, mine, theirs, only, false).note, "@7:8/9 my oak", "their place, and my note");
  assert.deepEqual(bothSides(by, tapped, ["place"], only),
    [{ part: "place", mine: "@7:5/6 acc=4.2 age=0", theirs: "@7:8/9" }]);
});

test("columns of what the device told stand in the order of its words", () => {
  assert.deepEqual(columnOrder(["h", "kind", "age", "acc", "d"]), ["kind", "acc", "h", "age", "d"]);
  assert.deepEqual(columnOrder(["h", "kind", "age"]), ["h", "kind", "age"]);
  assert.deepEqual(columnOrder(["acc", "kind"]), ["acc", "kind"]);
  assert.deepEqual([...columnsIn("oak acc=4.2 h=181.5 age=0").words.keys()], ["acc", "h", "age"]);
});
