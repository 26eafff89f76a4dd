// Places in systems that the page can't reckon: what is asked of the program of maps, which answers count, and what is
// said of how exact they are.

import assert from "node:assert/strict";
import { test } from "node:test";

import {
  inParts, isBrought, MOST_BROUGHT, questionOf, whyNotBrought, withinBoth, wordsOfDegrees, wordsOfWorth,
} from "../../../tools/page/beyond.mjs";
import { geoJsonOf, listingOf, wordsOfListing } from "../../../tools/page/files.mjs";

const BERN = [7.438632495, 46.951082877];  // swisstopo's own place of the old observatory, E 2,600,000 N 1,200,000

test("a question has the system as PROJ is asked for it, and the places", () => {
  assert.deepEqual(JSON.parse(questionOf({ epsg: 2056 }, [BERN])), { epsg: 2056, back: false, places: [BERN] });
  const told = JSON.parse(questionOf({ definition: "PROJCS[]" }, [[2600000, 1200000]], true));
  assert.deepEqual(told, { definition: "PROJCS[]", back: true, places: [[2600000, 1200000]] });
});

test("an answer has a place, or none, for each that was asked for", () => {
  const told = { places: [[2600000, 1200000], null], worth: 1, name: "an operation" };
  assert.equal(isBrought(told, 2), true);
  assert.equal(isBrought({ places: [null], worth: null, name: "" }, 1), true);
  const wrong = [null, {}, { ...told, places: [[1, 2]] }, { ...told, places: [[1, "2"], null] }, { ...told, name: 3 },
    { ...told, places: [[1, 2, 3], null] }, { ...told, worth: null }, { ...told, worth: -1 }, { ...told, worth: "x" }];
  for (const it of wrong) assert.equal(isBrought(it, 2), false, JSON.stringify(it));
});

test("a place is as exact as the worse of the device and its way into the system", () => {
  assert.deepEqual([withinBoth(4.2, 1), withinBoth(0.02, 1), withinBoth(4, 5), withinBoth(null, 5), withinBoth(3, 0)],
    [4.2, 1, 5, null, 3]);
});

test("beyond a metre that is said", () => {
  assert.deepEqual([wordsOfWorth(0), wordsOfWorth(1)], ["", ""]);
  assert.equal(wordsOfWorth(2), "Places of this map's system are good for 2 m only.");
  assert.match(whyNotBrought({ places: [null], worth: null, name: "Ballpark" }), /nobody knows: .* by "Ballpark"\.$/);
  assert.match(whyNotBrought({ places: [null], worth: null, name: "" }), /^PROJ brings no place from here/);
});

test("degrees that were brought over are in files, with what they are worth", () => {
  const row = { id: 1, title: "Bern", note: "@2056:2600000/1200000 old", amount: 0 };
  const far = { id: 2, title: "Far", note: "@2056:1/1", amount: 0 }, of = { table: "t", identifier: "T", when: "now" };
  const brought = { places: [BERN], worth: 1, name: "CH1903+ to WGS 84 (1)" };
  const found = new Map([["@2056:2600000/1200000", { longitude: BERN[0], latitude: BERN[1] }]]);
  const listing = listingOf(of, [row, far], null, {}, { found, words: wordsOfDegrees(2056, brought) });
  const [one, two] = JSON.parse(geoJsonOf(listing)).features.map(it => it.geometry);
  assert.deepEqual([one, two], [{ type: "Point", coordinates: BERN }, null]);
  assert.match(wordsOfListing(listing, "geojson"),
    /Degrees of system 2056 are PROJ's, by "CH1903\+ to WGS 84 \(1\)", good for 1 m\..* Far at east 1, north 1/s);
  assert.deepEqual(wordsOfDegrees(7, { ...brought, worth: null }), []);
  assert.deepEqual(listingOf(of, [row], null, {}).rows[0].degrees, null, "nothing was brought over");
});

test("long lists go in parts", () => {
  assert.deepEqual(inParts([1, 2, 3, 4, 5], 2), [[1, 2], [3, 4], [5]]);
  assert.deepEqual(inParts([], 2), []);
  assert.ok(MOST_BROUGHT <= 5000, "as many as the program of maps takes");
});
