// Who saved a row last, and when: two words of its note, and what two sides' changes come to with them.

import assert from "node:assert/strict";
import { test } from "node:test";

import { isSameRow, joined, settled } from "../../../tools/page/changes.mjs";
import { columnsIn } from "../../../tools/page/notewords.mjs";
import { laterOf, nameOfCrew, savedAt, signatureAt, signatureIn, signed, unsigned } from
  "../../../tools/page/signing.mjs";

const ONLY = 25832, AT = Date.UTC(2026, 5, 15, 12, 0, 7, 900);
const ADA = { by: "Ada", at: "2026-06-15T12:00:07Z" }, BEN = { by: "Ben's \"A\" crew", at: "2026-06-15T13:00:00Z" };
const NOTES = ["", "by the wall", "@25832:1/2 oak kind=oak", "two  spaces \n and a line", "ends with a space "];

test("a signature comes on behind a note, and off letter by letter", () => {
  for (const note of NOTES) {
    for (const it of [ADA, BEN]) {
      const whole = signed(note, it);
      assert.deepEqual(signatureIn(whole), { rest: note, signature: it }, JSON.stringify(whole));
      assert.equal(unsigned(whole), note);
      assert.equal(signed(whole, null), note, "a save without a name");
      assert.equal(unsigned(signed(whole, ADA)), note, "signed anew");
      const { words } = columnsIn(whole);
      assert.deepEqual([words.get("by"), words.get("at")], [it.by, it.at], "columns of the office");
    }
  }
  assert.equal(signed("oak", ADA), "oak by=Ada at=2026-06-15T12:00:07Z");
  assert.equal(signed("", BEN), 'by="Ben\'s ""A"" crew" at=2026-06-15T13:00:00Z');
});

test("what is no signature stays", () => {
  for (const note of ["by=Ada", "at=2026-06-15T12:00:07Z", "by=Ada at=noon", "by=Ada at=noon at=2026-06-15T12:00:07Z",
    "nearby=Ada at=2026-06-15T12:00:07Z", 'by="" at=2026-06-15T12:00:07Z', "by=Ada at=2026-13-15T12:00:07Z",
    "by=Ada at=2026-06-15T12:00:07", "by= at=2026-06-15T12:00:07Z", 'by="Ada at=2026-06-15T12:00:07Z']) {
    assert.deepEqual(signatureIn(note), { rest: note, signature: null }, note);
  }
  for (const note of ["by=contractor oak", "oak at=5", "kind=oak by=\"the town\" at=noon"]) {
    assert.equal(signed(note, ADA), note, "a layer's own columns of these names");
  }
  for (const [note, rest] of [["by=Ada at=2026-06-15T12:00:07Z then", "then"],
    ["oak at=2026-06-15T12:00:07Z by=Ada", "oak"], ["a by=Ada b\nat=2026-06-15T12:00:07Z c", "a b c"],
    ["@25832:1/2 by=Ada at=2026-06-15T12:00:07Z kind=oak",
      "@25832:1/2 kind=oak"]]) {
    assert.deepEqual(signatureIn(note), { rest, signature: ADA }, `where else it may stand: ${note}`);
  }
  const long = "x".repeat(980);
  assert.equal(signed(long, ADA), long, "a note that would be too long");
});

test("a crew's name", () => {
  assert.equal(nameOfCrew("  Ada \n & Ben\u00a0 "), "Ada & Ben");
  assert.equal(nameOfCrew("Ada @1/2"), "Ada 1/2", "no place within a name");
  assert.equal(nameOfCrew("x".repeat(99)).length, 60);
  assert.deepEqual(signatureAt("Ada", AT), ADA);
  for (const [name, now] of [["", AT], ["  ", AT], ["Ada", 0], ["Ada", Date.UTC(2060, 0, 1)]]) {
    assert.equal(signatureAt(name, now), null, `${name} ${now}`);
  }
  assert.equal(savedAt(signed("oak", ADA)), Date.UTC(2026, 5, 15, 12, 0, 7));
  assert.equal(savedAt("oak"), null);
  assert.deepEqual([laterOf(ADA, BEN), laterOf(BEN, ADA), laterOf(null, ADA), laterOf(ADA, null), laterOf(null, null)],
    [BEN, BEN, ADA, ADA, null]);
});

const row = (title, note, amount, by = null) => ({ id: 7, title, note: signed(note, by), amount });
const PLACE = "@25832:1/2";

test("two crews that changed other parts of a row join, and who saved it is the later", () => {
  const saw = row("Oak", `${PLACE} old`, 1);
  for (const [first, then] of [[ADA, BEN], [BEN, ADA]]) {
    const mine = row("Oak", `${PLACE} new`, 1, first), theirs = row("Elm", `${PLACE} old`, 1, then);
    const verdict = joined(saw, mine, theirs, ONLY);
    assert.deepEqual(verdict, { is: "joined", row: row("Elm", `${PLACE} new`, 1, BEN), parts: ["title"] });
  }
  const moved = row("Oak", "@25832:3/4 old", 1, ADA), noted = row("Oak", `${PLACE} new`, 1, BEN);
  assert.deepEqual(joined(saw, moved, noted, ONLY),
    { is: "joined", row: row("Oak", "@25832:3/4 new", 1, BEN), parts: ["note"] });
  assert.deepEqual(joined(row("Oak", "", 1, ADA), row("Oak", "", 2, BEN), row("Elm", "", 1, null), ONLY),
    { is: "joined", row: row("Elm", "", 2, BEN), parts: ["title"] }, "of a crew without a name");
});

test("who saved a row and when is no change", () => {
  const saw = row("Oak", `${PLACE} old`, 1, ADA), again = row("Oak", `${PLACE} old`, 1, BEN);
  assert.ok(isSameRow(saw, again) && !isSameRow(saw, null) && isSameRow(null, null));
  const mine = row("Elm", `${PLACE} old`, 1, BEN);
  assert.deepEqual(joined(saw, mine, again, ONLY), { is: "mine", row: mine }, "theirs is as the form saw it");
  const [early, late] = [ADA, BEN].map(it => row("Elm", `${PLACE} old`, 1, it));
  assert.deepEqual(joined(saw, late, early, ONLY), { is: "mine", row: late }, "both changed it alike");
  assert.deepEqual(joined(saw, early, late, ONLY), { is: "joined", row: late, parts: [] });
  assert.deepEqual(joined(saw, late, late, ONLY), { is: "mine", row: late }, "as it was saved");
  const theirs = row("Fir", `${PLACE} old`, 1, ADA);
  assert.deepEqual(joined(saw, mine, theirs, ONLY), { is: "apart", parts: ["title"] }, "one part that both changed");
  assert.deepEqual(settled(saw, mine, theirs, ONLY, true), row("Elm", `${PLACE} old`, 1, BEN));
  assert.deepEqual(settled(saw, mine, theirs, ONLY, false), row("Fir", `${PLACE} old`, 1, BEN));
});
