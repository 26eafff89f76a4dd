// Looks of tables, kinds by a title's first word, and classes of amounts.

import assert from "node:assert/strict";
import { test } from "node:test";

import { commonWords, firstWord, toldByMarks } from "../../../tools/page/kinds.mjs";
import { STYLES_OF_WAITING, choiceKept, inkOf, styleOfTable } from "../../../tools/page/styles.mjs";

const row = (title, amount = 0) => ({ title, amount });

test("the first word of a title", () => {
  const cases = { "Stone 12": "Stone", "  Oak, old": "Oak", "\"Elm\" 4": "Elm", "12 stones": "", "": "", "(K) pit": "K",
    "Mühlstein\u00a07": "Mühlstein", "B-12 post": "B-12", "--": "" };
  for (const [title, word] of Object.entries(cases)) assert.equal(firstWord(title), word, title);
});

test("common words, the most common first, whatever their letters' case and marks", () => {
  const found = commonWords(["oak 1", "Stone 1", "Oak 2", "stone", "STONE 3", "Pit", "Öak"]);
  assert.deepEqual([...found], [["oak", { word: "oak", count: 3 }], ["stone", { word: "Stone", count: 3 }]]);
  const many = Array.from({ length: 40 }, (_, at) => `${String.fromCharCode(97 + at % 20)}word`);
  assert.equal(commonWords(many).size, 8);
});

test("each kind has a letter that no other has", () => {
  const titles = ["Stone", "Stone", "Stone", "Spring", "Spring", "Sp", "Sp", "Tree 1", "Tree 2", "other"];
  const { kinds, of } = toldByMarks("word", titles.map(it => row(it)));
  assert.deepEqual(kinds, [{ sign: "S", words: "Stone", count: 3 }, { sign: "P", words: "Spring", count: 2 },
    { sign: "", words: "Sp", count: 2 }, { sign: "T", words: "Tree", count: 2 }]);
  assert.deepEqual([of(row("stone 7"))?.sign, of(row("Sp 1"))?.sign, of(row("other"))], ["S", "", undefined]);
});

test("classes of amounts: each of a few amounts, else with about as many rows", () => {
  const few = toldByMarks("amount", [3, 1, 1, 2].map(it => row("", it)));
  assert.deepEqual(few.kinds, [{ sign: "1", words: "1", count: 2 }, { sign: "2", words: "2", count: 1 },
    { sign: "3", words: "3", count: 1 }]);
  const many = toldByMarks("amount", Array.from({ length: 100 }, (_, at) => row("", at * 1000)));
  assert.deepEqual(many.kinds.map(it => it.count), [20, 20, 20, 20, 20]);
  assert.equal(many.kinds[1].words, "20,000 to 39,000");
  assert.deepEqual([0, 19000, 20000, 99000].map(it => many.of(row("", it))?.sign), ["1", "1", "2", "5"]);
  const skewed = toldByMarks("amount", [...Array(95).fill(0), 1, 2, 3, 4, 5].map(it => row("", it)));
  assert.equal(skewed.kinds.reduce((sum, it) => sum + it.count, 0), 100);
  assert.deepEqual([skewed.kinds[0].count, skewed.kinds.length <= 5, skewed.of(row("", 5))?.sign],
    [95, true, String(skewed.kinds.length)]);
  assert.deepEqual(toldByMarks("amount", []).kinds, []);
  assert.equal(toldByMarks("", [row("Stone"), row("Stone")]).of(row("Stone")), undefined);
});

test("tables differ by colour and by shape, and from what waits", () => {
  const all = Array.from({ length: 12 }, (_, at) => styleOfTable(at));
  assert.equal(new Set(all.slice(0, 6).map(it => it.fill)).size, 6);
  assert.equal(new Set(all.slice(0, 6).map(it => JSON.stringify(it.corners))).size, 6);
  assert.equal(new Set(all.map(it => it.name)).size, 12);
  const waiting = Object.values(STYLES_OF_WAITING).map(it => JSON.stringify(it.corners));
  assert.ok(all.every(it => !waiting.includes(JSON.stringify(it.corners))));
  assert.deepEqual(styleOfTable(12), styleOfTable(0));
});

/** A colour's luminance, as WCAG 2 has it. */
function luminance(colour) {
  const text = colour.length === 4 ? colour.replace(/[0-9a-f]/g, "$&$&") : colour;
  const [red, green, blue] = [1, 3, 5].map(at => parseInt(text.slice(at, at + 2), 16) / 255)
    .map(it => it <= 0.03928 ? it / 12.92 : ((it + 0.055) / 1.055) ** 2.4);
  return 0.2126 * red + 0.7152 * green + 0.0722 * blue;
}

test("a mark's sign and edge stand out from it by 4.5 to 1", () => {
  for (const it of [...Array.from({ length: 12 }, (_, at) => styleOfTable(at)), ...Object.values(STYLES_OF_WAITING)]) {
    const [light, dark] = [inkOf(it), it.fill].map(luminance).sort((one, other) => other - one);
    assert.ok((light + 0.05) / (dark + 0.05) >= 4.5, it.name);
    assert.notEqual(it.fill, it.edge);
  }
});

test("what was chosen, as a browser kept it", () => {
  assert.deepEqual(choiceKept(null), { off: [], tells: "" });
  assert.deepEqual(choiceKept("no JSON"), { off: [], tells: "" });
  assert.deepEqual(choiceKept('{"off":["trees",3],"tells":"word"}'), { off: ["trees"], tells: "word" });
  assert.deepEqual(choiceKept('{"off":"trees","tells":"colours"}'), { off: [], tells: "" });
  assert.deepEqual(choiceKept("[]"), { off: [], tells: "" });
});
