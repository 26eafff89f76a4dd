// The parts of the page's core: notes, systems, answers, two sides of a row, records.

import assert from "node:assert/strict";
import { test } from "node:test";

import { isContents, isEnd, isRelated, isRows, judged, STRANGER } from "../../../tools/page/answers.mjs";
import { joined, settled } from "../../../tools/page/changes.mjs";
import { noteOf, numberAt, placeOfNote } from "../../../tools/page/notes.mjs";
import { actsOfForm, hexOf, lineOf, recordsToKeep, removalOf, withRecords } from "../../../tools/page/records.mjs";
import { doubtOf, folded, placeTold } from "../../../tools/page/typed.mjs";
import { projected, wordsOfWay } from "../../../tools/page/systems.mjs";
import { bothSides, wordsOf } from "../../../tools/page/words.mjs";

const ONLY = 25832;
const UTM = { semi_major: 6378137, inverse_flattening: 298.257222101, central_meridian: 9, latitude_of_origin: 0,
  scale_factor: 0.9996, false_easting: 500000, false_northing: 0 };

test("a place is a word of a note", () => {
  const place = { system: 25832, east: "500240", north: "5600130.25" };
  for (const [note, rest] of [["@25832:500240/5600130.25 by the books", "by the books"], ["@500240/5600130.25", ""],
    ["by\u00a0@25832:500240/5600130.25\nthe books", "by\nthe books"]]) {
    assert.deepEqual(placeOfNote(note, ONLY), { ...place, rest }, note);
  }
  for (const note of ["x@12/34", "@12/34x", "@025832:12/34", "@12,5/34", "@1234567890/1", "@1/1.1234567", "12/34"]) {
    assert.equal(placeOfNote(note, ONLY), null, note);
  }
  assert.equal(placeOfNote("@12/34", null), null, "a place that names no system, where maps have several");
  assert.equal(noteOf(place, "oak"), "@25832:500240/5600130.25 oak");
  assert.equal(noteOf(null, "oak"), "oak");
  assert.deepEqual(placeOfNote(noteOf({ system: -1, east: "5", north: "-6" }, ""), null)?.system, -1);
});

test("numbers tell their day, and none where the clock is wrong", () => {
  const day = Date.UTC(2026, 10, 29);
  assert.equal(numberAt(day, [0, 4095]), (day - Date.UTC(2020, 0, 1)) * 4096 + 4095);
  for (const wrong of [0, Date.UTC(2020, 0, 1), Date.UTC(2080, 0, 1)]) {
    const [least, most] = [[0, 0], [2 ** 32 - 1, 2 ** 32 - 1]].map(it => numberAt(wrong, it));
    assert.ok(least >= 2 ** 52 && most < 2 ** 53, `${least} to ${most}`);
  }
});

test("degrees are metres of a transverse Mercator, as gdaltransform has them", () => {
  const { east, north } = projected(UTM, 9.005, 50.552);
  assert.ok(Math.abs(east - 500354.216) < 0.01 && Math.abs(north - 5600007.53) < 0.01, `${east} ${north}`);
  assert.equal(wordsOfWay(3, 4), "5.0 m, 37° (NE)");
  assert.equal(wordsOfWay(-1500, 1), "1,500 m, 270° (W)");
});

test("what people type", () => {
  assert.ok(folded("Mühlstein, Ångström").includes("muhlstein") && folded("u\u0308") === folded("\u00fc"));
  for (const text of ["501139.53 5601234.70", "501139,53 5601234,70", "32 501139.53 5601234.7",
    "E 501139.53, N 5601234.70", "501139.53;5601234.70", "501139.53/5601234.70", "501139.53,5601234.70"]) {
    assert.deepEqual(placeTold(text), [501139.53, 5601234.7], text);
  }
  for (const text of ["", "1", "1 2 3 4", "100 1 2", "a b", "1.2.3 4"]) assert.equal(placeTold(text), null, text);
  const maps = [{ srs_id: 25832, extent: [0, 0, 100e6, 200e6] }];
  const place = { system: 25832, east: "100", north: "200.0" };
  assert.equal(doubtOf(place, "", maps, 25832), "");
  assert.equal(doubtOf({ ...place, east: "200", north: "100" }, "", maps, 25832), "This place is outside all maps");
  assert.equal(doubtOf({ ...place, system: 7 }, "", maps, 25832), "", "of a system without a map");
  assert.match(doubtOf(null, "@12/34 call tomorrow", maps, 25832), /east 12, north 34/);
  assert.equal(doubtOf(null, "at 12/34", maps, 25832), "");
});

const RECORDS = [["row", "spots", 1, "", "", 0], ["media", "photos", 2, "image/jpeg"], ["map", "spots_photos", 1, 2]];
const answer = (text, more = {}) => ({ status: 200, type: "text/plain", leads: false, text, ...more });
const DONE = "1 ok\n2 ok\n3 ok\n";
const STRANGE = [
  answer("<p>another program</p>\n".repeat(3)), answer("hello"), answer("ok\nok\nok\n"), answer("1 ok\n1 ok\n1 ok\n"),
  answer("1 ok\n3 ok\n2 ok\n"), answer("1 fault 91\n2 ok\n3 ok\n"), answer("1 ok \n2 ok\n3 ok\n"),
  answer("1 OK\n2 ok\n3 ok\n"), answer("1 ok\r\n2 ok\r\n3 ok\r\n"), answer(`${DONE}4 ok\n`), answer(`${DONE}more`),
  answer(DONE, { type: "text/html" }), answer(DONE, { type: null }), answer(DONE, { leads: true }),
  answer(DONE, { status: 201 }), answer("", { status: 0, type: null, leads: true }),
  answer("<p>no</p>", { status: 404, type: "text/html" }), answer("", { status: 413, type: "text/html" }),
  answer("", { status: 502, type: null }),
];

test("only the package's own answer counts", () => {
  assert.deepEqual(judged(RECORDS, answer(DONE)), { lines: ["1 ok", "2 ok", "3 ok"] });
  assert.equal(judged(RECORDS, answer("1 ok\n2 ok\n3 refused 45\n")).refused, undefined, "it stands already");
  assert.match(judged(RECORDS, answer("1 refused 25\n2 ok\n3 ok\n")).refused ?? "", /no such table \(25\)/);
  for (const text of ["", "1 o", "1 ok\n2", "1 ok\n2 ok\n", "1 ok\n2 ok\n3 refused 4"]) {
    assert.equal(judged(RECORDS, answer(text)).again, "the answer was cut short", JSON.stringify(text));
  }
  assert.match(judged(RECORDS, answer("1 ok\n2 fault 91\n")).again ?? "", /could not be read/);
  for (const it of STRANGE) assert.equal(judged(RECORDS, it).again, STRANGER, JSON.stringify(it));
  assert.match(judged(RECORDS, answer("", { status: 404, type: null })).again ?? "", /its key has changed/);
  assert.match(judged(RECORDS, answer("", { status: 413, type: null })).refused ?? "", /too large/);
});

test("only the package's own rows, contents, related lists and end count", () => {
  const row = { amount: 1, id: 7, note: "", title: "Well" };
  assert.ok(isRows([row, { ...row, id: 9 }], 7) && isRows([], 1));
  for (const it of [null, {}, "[]", [null], [{ ...row, id: "7" }], [row, row], [{ ...row, id: 6 }],
    [{ ...row, amount: 0.5 }], [{ id: 8 }]]) assert.ok(!isRows(it, 7), JSON.stringify(it));
  const table = { table: "spots", kind: "attributes", identifier: "Spots", last_change: "2026" };
  assert.ok(isContents([table, { ...table, kind: "pyramid", extent: [0, 0, 1, 1], srs_id: 7 }]));
  for (const it of [{ tables: [] }, [{}], [{ ...table, extent: [1, 2, 3] }], [{ ...table, extent: [0, 0, 1, 1] }],
    [{ ...table, extent: [0, 0, 1, "1"], srs_id: 7 }], 0]) assert.ok(!isContents(it), JSON.stringify(it));
  assert.ok(isRelated([{ id: 7, mapping: "m", name: "media", table: "photos" }]));
  assert.ok(!isRelated([{ id: 7 }]) && !isRelated({}));
  const end = { status: 200, type: null, leads: false, text: "" };
  assert.ok(isEnd(end));
  for (const it of [answer(""), { ...end, text: "bye" }, { ...end, status: 204 }, { ...end, leads: true }]) {
    assert.ok(!isEnd(it), JSON.stringify(it));
  }
});

const row = (title, note, amount) => ({ id: 7, title, note, amount });
const SAW = row("Stone", "@25832:10/20 by the books", 3);

test("what one side alone changed of a row is joined", () => {
  const both = (mine, theirs) => joined(SAW, mine, theirs, ONLY);
  assert.deepEqual(both({ ...SAW, amount: 4 }, SAW), { is: "mine", row: { ...SAW, amount: 4 } });
  assert.deepEqual(both({ ...SAW, amount: 4 }, { ...SAW, title: "Stone A" }),
    { is: "joined", row: row("Stone A", SAW.note, 4), parts: ["title"] });
  assert.deepEqual(both(row("Stone", "@25832:11/20 by the books", 3), row("Stone", "@25832:10/20 leaning", 5)),
    { is: "joined", row: row("Stone", "@25832:11/20 leaning", 5), parts: ["note", "amount"] });
  assert.deepEqual(both(row("Stone", "by the books", 3), row("Stone", "@25832:10/20 leaning", 3)),
    { is: "joined", row: row("Stone", "leaning", 3), parts: ["note"] }, "a place that was taken away");
  const odd = "by  the books\n@10/20";
  assert.deepEqual(both({ ...SAW, amount: 4 }, { ...SAW, note: odd }),
    { is: "joined", row: row("Stone", odd, 4), parts: ["note"] }, "letter by letter");
  assert.equal(both({ ...SAW, amount: 4 }, { ...SAW, amount: 4, title: "B" }).is, "joined", "both changed it alike");
});

test("what both sides changed of a row is apart", () => {
  const both = (saw, mine, theirs) => joined(saw, mine, theirs, ONLY);
  assert.deepEqual(both(SAW, { ...SAW, amount: 4 }, { ...SAW, amount: 5 }), { is: "apart", parts: ["amount"] });
  assert.deepEqual(both(SAW, row("A", SAW.note, 4), row("B", "@25832:10/20 other", 3)),
    { is: "apart", parts: ["title"] });
  assert.deepEqual(both(SAW, { ...SAW, amount: 4 }, null), { is: "apart", parts: [] }, "the row is gone");
  assert.equal(both(null, SAW, null).is, "mine", "a new row");
  assert.equal(both(null, SAW, { ...SAW }).is, "mine", "a new row that was cut, and stands");
  assert.deepEqual(both(null, SAW, { ...SAW, amount: 9 }), { is: "apart", parts: ["amount"] }, "another row's number");
  assert.deepEqual(both(undefined, SAW, { ...SAW, amount: 9 }), { is: "apart", parts: ["amount"] }, "of an older page");
  assert.equal(both(undefined, SAW, null).is, "mine");
  const [here, there] = ["@25832:1.123456/20 by the books", `@25832:10/20 ${"x".repeat(982)}`];
  assert.deepEqual(both(SAW, row("Stone", here, 3), row("Stone", there, 3)), { is: "apart", parts: ["note"] },
    "a note that would be too long");
});

test("who decides takes a side of what both changed, and all else is of who changed it", () => {
  const mine = row("A", SAW.note, 4), theirs = row("B", "@25832:10/20 leaning", 3);
  assert.deepEqual(settled(SAW, mine, theirs, ONLY, true), row("A", theirs.note, 4));
  assert.deepEqual(settled(SAW, mine, theirs, ONLY, false), row("B", theirs.note, 4));
  const [here, there] = ["@25832:11/20 oak", "@25832:12/20 by the books"];
  assert.equal(settled(SAW, row("Stone", here, 3), row("Stone", there, 3), ONLY, false).note, "@25832:12/20 oak");
  assert.equal(settled(SAW, row("Stone", here, 3), row("Stone", there, 3), ONLY, true).note, here);
  assert.deepEqual(settled(null, mine, theirs, ONLY, true), mine);
  assert.deepEqual(settled(undefined, mine, theirs, ONLY, false), theirs);
  assert.deepEqual(settled(SAW, mine, null, ONLY, true), mine);
  const long = row("Stone", `@25832:10/20 ${"x".repeat(982)}`, 3);
  const moved = row("Stone", "@25832:1.123456/20 by the books", 3);
  assert.equal(settled(SAW, moved, long, ONLY, true).note, moved.note, "a note that would be too long");
});

test("a form's acts: the first photo goes with the row, each other one by itself", () => {
  const photos = [{ id: 1 }, { id: 2 }], relation = { related: "photos", mapping: "m" };
  const form = { table: "spots", row: SAW, saw: null, isSame: false, relation, photos };
  const acts = actsOfForm(form);
  assert.deepEqual(acts.map(it => it.records.map(([word]) => word)), [["row", "media", "map"], ["media", "map"]]);
  assert.deepEqual([acts[0].saw, acts[0].row, acts[1].row], [null, SAW, undefined]);
  assert.deepEqual(actsOfForm({ ...form, isSame: true, photos: [] }), []);
  assert.equal(actsOfForm({ ...form, isSame: true })[0].row, undefined, "a row that wasn't changed isn't sent");
  assert.equal(actsOfForm({ ...form, number: 4 })[0].number, 4);
});

test("a removal takes along what leads from the row", () => {
  const related = [{ id: 1, table: "photos", mapping: "m", name: "media" },
    { id: 2, table: "owners", mapping: "o", name: "simple_attributes" }];
  const { records, then } = withRecords(removalOf("spots", SAW), related);
  assert.deepEqual(records, [["map-drop", "m", 7, 1], ["map-drop", "o", 7, 2], ["row-drop", "spots", 7]]);
  assert.deepEqual(then, [["media-drop", "photos", 1]]);
  assert.deepEqual(recordsToKeep(removalOf("spots", SAW)), [["row-drop", "spots", 7]]);
});

test("records as bytes", () => {
  assert.equal(lineOf(["row", "spots", 1, 'A "stone"', "a,b\nc", 0]), 'row,spots,1,"A ""stone""","a,b\nc",0');
  assert.equal(Buffer.from(hexOf(new Uint8Array([0, 9, 10, 255]))).toString(), "00090aff");
});

test("words of an act", () => {
  const act = { number: 1, at: "k", table: "spots", of: 7, what: "Stone", row: SAW, saw: SAW, records: [] };
  const apart = { theirs: SAW, parts: ["title", "amount"] };
  assert.equal(wordsOf(act, [act], "k"), "waits to be sent");
  assert.match(wordsOf(act, [act], "other"), /another key/);
  assert.equal(wordsOf({ ...act, apart }, [], "k"),
    "changed meanwhile: you and another have changed the title and the amount");
  assert.match(wordsOf({ ...act, apart: { theirs: null, parts: [] } }, [], "k"), /removed/);
  const behind = { ...act, number: 2 };
  assert.equal(wordsOf(behind, [{ ...act, apart }, behind], "k"), "waits for the one above of its row");
  const sides = [{ part: "amount", mine: "3", theirs: "4" }];
  assert.deepEqual(bothSides(SAW, { ...SAW, amount: 4, title: "B" }, ["amount"], ONLY), sides);
});
