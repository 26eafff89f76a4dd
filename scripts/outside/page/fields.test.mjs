// Fields that a table 'forms' lays out, and their values as words of a note.

import assert from "node:assert/strict";
import { test } from "node:test";

import { beganWith, doubtOfValue, doubtsOfFields, fieldsOf, noteOfFields, partedNote, valueTyped }
  from "../../../tools/page/fields.mjs";
import { columnsIn, isNameOfWord, wordOfValue } from "../../../tools/page/notewords.mjs";

const row = (id, title, note, amount) => ({ id, title, note, amount });
const FORM = [
  row(5, "spots.kind", 'kind=choice choices="stone|pipe | iron bar" wanted=yes label="Kind of mark"', 1),
  row(1, "spots.girth", "kind=number unit=cm", 3),
  row(2, "spots.checked", "kind=yesno", 2),
  row(3, "spots.seen_on", "kind=date", 4),
  row(4, "spots.by", "who has seen it", 4),
];
const FIELDS = fieldsOf(FORM, "spots");

test("fields in their order, each with what its note tells", () => {
  assert.deepEqual(FIELDS.map(it => it.name), ["kind", "checked", "girth", "seen_on", "by"]);
  assert.deepEqual(FIELDS[0], { name: "kind", label: "Kind of mark", kind: "choice", unit: "", isWanted: true,
    choices: ["stone", "pipe", "iron bar"] });
  assert.deepEqual(FIELDS[1].choices, ["yes", "no"]);
  assert.deepEqual(FIELDS.slice(2).map(it => [it.label, it.kind, it.unit]),
    [["girth", "number", "cm"], ["seen on", "date", ""], ["by", "text", ""]]);
});

test("rows that lay out no field of the table are passed over, and odd kinds are texts", () => {
  const odd = [row(1, "trees.kind", "", 0), row(2, "spots", "", 0), row(3, "spots.", "", 0), row(4, "spots.a b", "", 0),
    row(5, "spots.a=b", "", 0), row(6, "spots.@a", "", 0), row(7, "spots.a", "kind=colour", 0),
    row(8, "spots.a", "kind=number", 1), row(9, "spots.b", "kind=choice", 0), row(10, "spots.c.d", "", 0),
    row(11, "spots.e", 'kind=choice choices="|x|x|"', 0), row(12, "Spots.f", "", 0)];
  assert.deepEqual(fieldsOf(odd, "spots").map(it => [it.name, it.kind, it.choices]),
    [["a", "text", []], ["b", "text", []], ["c.d", "text", []], ["e", "choice", ["x"]]]);
  assert.deepEqual(fieldsOf([], "spots"), []);
});

test("a note is parted into its text and the fields' values; other words are of the text", () => {
  const { text, values } = partedNote('under the oak kind="iron bar" h=181.5 girth=30', FIELDS);
  assert.deepEqual([text, [...values]], ["under the oak h=181.5", [["kind", "iron bar"], ["girth", "30"]]]);
  assert.deepEqual(partedNote("", FIELDS), { text: "", values: new Map() });
});

test("a note that says the same stays letter by letter; else words are behind its text, in the fields' order", () => {
  const before = 'girth=30  under the oak kind="pipe"', same = partedNote(before, FIELDS);
  assert.equal(noteOfFields(same, FIELDS, before), before);
  same.values.set("kind", "iron bar");
  assert.equal(noteOfFields(same, FIELDS, before), 'under the oak kind="iron bar" girth=30');
  same.values.set("girth", "");
  same.text = "";
  assert.equal(noteOfFields(same, FIELDS, before), 'kind="iron bar"');
});

test("what is written is read again, whatever it is", () => {
  for (const value of ["oak", "old oak", '"quoted"', 'a "b" c', "a=b", "@1/2", "", "é\u00a0è", "1,5", "x\ty", '"']) {
    for (const before of ["", "some text", "@25832:1/2 some"]) {
      const note = [before, wordOfValue("kind", value)].filter(it => it).join(" ");
      assert.deepEqual([columnsIn(note).words.get("kind"), columnsIn(note).rest], [value, before], note);
    }
  }
  assert.deepEqual(["a", "a b", "a=b", '"a', "@a", "é.1", ""].filter(isNameOfWord), ["a", "é.1"]);
});

test("numbers as the office's columns spell them, with a comma too; what is none stays", () => {
  const number = { ...FIELDS[2] };
  const cases = { "2,50": "2.5", "2.50": "2.5", "007": "7", " 3 ": "3", "-0": "0", "-1,0": "-1", "+4.25": "4.25",
    "0.10": "0.1", "abc": "abc", "1.2.3": "1.2.3", "1e5": "1e5", "": "", "0": "0", "-0,5": "-0.5", "100": "100" };
  for (const [typed, kept] of Object.entries(cases)) assert.equal(valueTyped(number, typed), kept, typed);
  assert.equal(valueTyped(FIELDS[4], " 007 "), "007");
});

test("what is odd about a value", () => {
  const [kind, checked, girth, seen, by] = FIELDS;
  const cases = [[kind, "", "This is wanted."], [kind, "pipe", ""], [kind, "wood", "This is none of the choices."],
    [checked, "", ""], [checked, "maybe", "This is none of the choices."], [girth, "2.5", ""],
    [girth, "thick", "This is no number."], [girth, "", ""], [seen, "2026-02-29", "This is no day, as 2026-06-15 is."],
    [seen, "2028-02-29", ""], [seen, "June", "This is no day, as 2026-06-15 is."], [by, "x y", ""]];
  for (const [field, value, why] of cases) assert.equal(doubtOfValue(field, value), why, `${field.name} ${value}`);
  const values = new Map([["kind", "pipe"], ["girth", "x"]]);
  assert.deepEqual(doubtsOfFields({ text: "some by=me", values }, FIELDS).map(it => [it.field.name, it.why]),
    [["girth", "This is no number."], ["by", "The note has this too."]]);
});

test("a title that begins with a word", () => {
  const common = ["Oak", "Elm"];
  assert.equal(beganWith("", "Oak", common), "Oak");
  assert.equal(beganWith("12", "Oak", common), "Oak 12");
  assert.equal(beganWith("elm 12", "Oak", common), "Oak 12");
  assert.equal(beganWith("Elm", "Oak", common), "Oak");
  assert.equal(beganWith("Elmwood 3", "Oak", common), "Oak Elmwood 3");
});
