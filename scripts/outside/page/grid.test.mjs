// Which marks a map has of many places.

import assert from "node:assert/strict";
import { test } from "node:test";

import { boxOf, drawnOf, shortly, sizeOfMarks } from "../../../tools/page/grid.mjs";

// A map of 800 x 600 pixels of a metre each.
const SIGHT = { west: 500000, south: 5600000, east: 500800, north: 5600600, pixel: 1 };

/** Places spread over a box, the same in each run. */
const spread = (count, { west = 500000, south = 5600000, wide = 800, high = 600 } = {}) =>
  Array.from({ length: count }, (_, at) => ({ id: at, east: west + at * 389 % wide, north: south + at * 211 % high }));

test("the more marks are seen the smaller they are", () => {
  assert.equal(sizeOfMarks(0, 480000), 8);
  assert.equal(sizeOfMarks(100, 480000), 8);
  assert.equal(sizeOfMarks(600, 480000), 5);
  assert.equal(sizeOfMarks(100000, 480000), 3);
});

test("few places have marks of their own, and those beside the sight none", () => {
  const all = [...spread(100), { id: 1000, east: 501000, north: 5600100 }];
  const { sizeOf, marks, seen, groups } = drawnOf(all, SIGHT, true);
  assert.deepEqual([sizeOf(marks[0]), marks.length, seen.length, groups], [8, 100, 100, []]);
});

test("many are one mark for each square, which has all of them, and few marks in all", () => {
  const all = spread(5000), { sizeOf, marks, groups } = drawnOf(all, SIGHT, true);
  assert.equal(sizeOf(all[0]), 3);
  assert.ok(groups.length > 50 && groups.length < 140, `${groups.length} groups`);
  assert.ok(marks.length <= 2000, `${marks.length} marks`);
  assert.equal(marks.length + groups.reduce((sum, it) => sum + it.items.length, 0), 5000);
  for (const { east, north, items } of groups) {
    const [west, south, right, top] = boxOf(items);
    assert.ok(east >= west && east <= right && north >= south && north <= top);
    assert.ok(right - west < 64 && top - south < 64, "of one square");
  }
});

test("of places that would hide a phone's map there are a few groups; where a map goes no nearer none", () => {
  const phone = { ...SIGHT, east: 500390, north: 5600300 }, all = spread(4000);
  const { marks, groups } = drawnOf(all, phone, true);
  assert.ok(marks.length < 400 && groups.length < 60);
  assert.equal(drawnOf(all, phone, false).groups.length, 0);
});

test("a square says the same wherever the map is moved", () => {
  const all = spread(5000), moved = { ...SIGHT, west: 500037, east: 500837, south: 5600021, north: 5600621 };
  const of = sight => new Map(drawnOf(all, sight, true).groups.map(it => [it.square, it.items.length]));
  const [here, there] = [of(SIGHT), of(moved)];
  for (const [square, count] of here) if (there.has(square)) assert.equal(there.get(square), count, square);
  assert.ok([...here.keys()].filter(it => there.has(it)).length > 50);
});

test("what waits is in no group, and as large as it alone would be", () => {
  const all = spread(5000).map((it, at) => ({ ...it, alone: at % 1000 === 0 }));
  const { sizeOf, marks, groups } = drawnOf(all, SIGHT, true);
  assert.deepEqual([sizeOf(all[0]), sizeOf(all[1])], [8, 3]);
  assert.equal(marks.filter(it => it.alone).length, 5);
  assert.ok(groups.every(it => it.items.every(({ alone }) => !alone)));
});

test("a map without a size has few marks", () => {
  const none = { ...SIGHT, east: SIGHT.west, north: SIGHT.south };
  assert.equal(drawnOf(spread(50), none, true).seen.length, 1);
});

test("numbers that have room in a mark", () => {
  const numbers = { 7: "7", 999: "999", 1000: "1.0k", 1290: "1.2k", 9949: "9.9k", 9950: "9k", 12345: "12k" };
  for (const [count, short] of Object.entries(numbers)) assert.equal(shortly(Number(count)), short);
});
