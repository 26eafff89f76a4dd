// Lengths, areas and offsets in the plane of a map. Lengths and areas are by GDAL's geometries (OGR's Length, GetArea
// and IsSimple).

import assert from "node:assert/strict";
import { test } from "node:test";

import { areaOf, crossesItself, lengthOf, wordsOfMeasure, wordsOfOffset } from "../../../tools/page/plane.mjs";

const PARCEL = [[500240.5, 5600130.25], [500310.25, 5600142.75], [500298, 5600201.5], [500231.75, 5600188]];
const SHAPES = [
  ["a parcel", PARCEL, 198.48624215270218, 4097.5, false],
  ["the same from its other end", [...PARCEL].reverse(), 198.48624215270218, 4097.5, false],
  ["a triangle", [[0, 0], [30, 0], [0, 40]], 80, 600, false],
  ["a bay", [[500000, 5600000], [500100, 5600000], [500100, 5600100], [500050, 5600020], [500000, 5600100]],
    388.679622641132, 6000, false],
  ["a bow tie", [[0, 0], [10, 10], [10, 0], [0, 10]], 38.2842712474619, 0, true],
  ["an edge that crosses the first", [[0, 0], [10, 0], [10, 10], [5, -5]], 35.8113883008419, 0, true],
];

test("lengths and areas, as GDAL has them", () => {
  for (const [name, points, length, area, crosses] of SHAPES) {
    assert.ok(Math.abs(lengthOf(points) - length) < 1e-9, `${name}: ${lengthOf(points)} m`);
    assert.ok(Math.abs(areaOf(points) - area) < 1e-6, `${name}: ${areaOf(points)} square metres`);
    assert.equal(crossesItself(points), crosses, name);
  }
  for (const few of [[], [[1, 2]]]) assert.deepEqual([lengthOf(few), areaOf(few)], [0, 0], "of less than two points");
  assert.equal(areaOf([[0, 0], [5, 5]]), 0);
});

test("what was measured, in words", () => {
  assert.equal(wordsOfMeasure([]), "Tap the points of a way on the map.");
  assert.equal(wordsOfMeasure([[1, 2]]), "Tap the next point.");
  assert.equal(wordsOfMeasure([[0, 0], [3, 4]]), "Way 5.00 m");
  assert.equal(wordsOfMeasure(PARCEL), "Way 198.5 m (last 67.61 m), area 4,097.5 m²");
  assert.equal(wordsOfMeasure([[0, 0], [20000, 0], [20000, 100]]),
    "Way 20,100 m (last 100.0 m), area 1,000,000 m²");
  assert.equal(wordsOfMeasure(SHAPES[4][1]), "Way 38.28 m (last 14.14 m), no area: it crosses itself");
});

test("offsets in words", () => {
  assert.equal(wordsOfOffset(1.2, -0.854), "1.20 m east, 0.85 m south");
  assert.equal(wordsOfOffset(-0.001, 0), "0.00 m east, 0.00 m north");
  assert.equal(wordsOfOffset(-134.26, 1353.1, { up: -0.35 }), "134.3 m west, 1,353.1 m north, 0.35 m down");
  assert.equal(wordsOfOffset(0, 2, { up: 1.5, within: 2.1 }), "0.00 m east, 2.00 m north, 1.50 m up (within 3 m)");
});
