// The parts of the page's core that are about maps behind the work, photos' places and slips.

import assert from "node:assert/strict";
import { test } from "node:test";

import { boxOfPart, hasPart, inOrder, isIn, isMaps, laidOver, lookOf, meet, movedInList, padded, policyFor,
  toldByAddress, withRoom, wordsOfMap } from "../../../tools/page/behind.mjs";
import { HEAD, placeOfPhoto } from "../../../tools/page/exif.mjs";
import { isTiny, slipOf, wordsOfSlips } from "../../../tools/page/slips.mjs";
import { placeInSystem } from "../../../tools/page/systems.mjs";
import { isOnMap } from "../../../tools/page/typed.mjs";

const ONLY = 25832, TOKEN = "abcdefghijklmnop_-09";
const UTM = { semi_major: 6378137, inverse_flattening: 298.257222101, central_meridian: 9, latitude_of_origin: 0,
  scale_factor: 0.9996, false_easting: 500000, false_northing: 0 };
const PICTURE = { number: 0, name: "a.tif", kind: "picture", bounds: [0, 0, 1000, 500], finest: 0.5, coarsest: 20 };
const SHAPES = { number: 1, name: "b.gpkg", kind: "shapes", bounds: [100, 100, 200, 200],
  columns: ["parcel", "owner"] };
const NONE = { number: 2, name: "c.txt", kind: "none", why: "GDAL opens no map of it" };

test("the address tells the file and where its maps are drawn, and nothing else leads anywhere", () => {
  const maps = `http://127.0.0.1:40123/${TOKEN}/`;
  assert.deepEqual(toldByAddress(`a%26b.mmpkg&maps=40123/${TOKEN}`), { file: "a&b.mmpkg", maps });
  assert.deepEqual(toldByAddress("trip.mmpkg"), { file: "trip.mmpkg", maps: null });
  assert.deepEqual(toldByAddress(""), { file: "", maps: null });
  assert.deepEqual(toldByAddress("%"), { file: "%", maps: null }, "what is no text of an address");
  for (const word of [`maps=40123/${TOKEN}/x`, "maps=40123/short", `maps=example.org/${TOKEN}`, `maps=401234/${TOKEN}`,
    `maps=40123/${TOKEN} http://example.org`, `x=40123/${TOKEN}`, `maps=40123@example.org/${TOKEN}`]) {
    assert.equal(toldByAddress(`f&${word}`).maps, null, word);
  }
  assert.equal(policyFor(maps), `connect-src 'self' ${maps}`);
  assert.equal(policyFor(null), "connect-src 'self'");
});

test("an answer that is no list of maps is none", () => {
  assert.ok(isMaps({ system: ONLY, maps: [PICTURE, SHAPES, NONE] }));
  assert.ok(isMaps({ system: null, maps: [] }) && isMaps({ system: ONLY, maps: [{ ...SHAPES, bounds: null }] }));
  for (const told of [null, {}, { maps: [PICTURE] }, { system: 1, maps: {} }, { system: 1, maps: [null] },
    { system: 1, maps: [{ ...PICTURE, name: 1 }] }, { system: 1, maps: [{ ...PICTURE, bounds: [0, 0, 1] }] },
    { system: 1, maps: [{ ...PICTURE, coarsest: "x" }] }, { system: 1, maps: [{ ...SHAPES, columns: [1] }] },
    { system: 1, maps: [{ ...NONE, why: undefined }] }, { system: 1, maps: [{ ...PICTURE, kind: "page" }] }]) {
    assert.equal(isMaps(told), false, JSON.stringify(told));
  }
});

test("maps lie as they were ordered, new ones behind them, and look as was chosen", () => {
  const names = (maps, looks) => inOrder(maps, looks).map(it => it.map.name);
  assert.deepEqual(names([PICTURE, SHAPES, NONE], []), ["a.tif", "b.gpkg", "c.txt"]);
  const looks = [lookOf(""), { name: "b.gpkg", on: false, strength: 40, column: "owner" }, lookOf("gone.tif"), null];
  assert.deepEqual(names([PICTURE, SHAPES, NONE], looks), ["b.gpkg", "a.tif", "c.txt"]);
  const [first, second] = inOrder([PICTURE, SHAPES], looks).map(it => it.look);
  assert.deepEqual(first, { name: "b.gpkg", on: false, strength: 40, column: "owner" });
  assert.deepEqual(second, { name: "a.tif", on: true, strength: 100, column: "" });
  const [two] = inOrder([{ ...SHAPES, columns: ["parcel"] }], looks);
  assert.equal(two.look.column, "", "a column that is gone");
  for (const strength of ["x", 5, 101, null]) assert.equal(lookOf("a", { strength }).strength, 100, String(strength));
  const twice = [PICTURE, { ...PICTURE, number: 1 }].map(it => ({ ...it, name: "same.tif" }));
  const [one, other] = inOrder(twice, [{ name: "same.tif", on: false }]);
  assert.deepEqual([one.look.on, other.look.on, one.map.number], [false, true, 0], "two of one name");
});

test("a map moves by one, and no further than the ends", () => {
  assert.deepEqual(movedInList(["a", "b", "c"], 0, 1), ["b", "a", "c"]);
  assert.deepEqual(movedInList(["a", "b", "c"], 2, -1), ["a", "c", "b"]);
  assert.deepEqual(movedInList(["a", "b", "c"], 0, -1), ["a", "b", "c"]);
  assert.deepEqual(movedInList(["a", "b", "c"], 2, 1), ["a", "b", "c"]);
});

test("parts are asked for where a picture has something, and not from too far out", () => {
  assert.deepEqual(boxOfPart([100, 0, 0, 900], 2, { x: 1, y: -1 }), [612, 900, 1124, 1412]);
  assert.ok(hasPart(PICTURE, 1, [900, 400, 1156, 656]) && !hasPart(PICTURE, 1, [1000, 0, 1256, 256]), "beside it");
  assert.ok(hasPart(PICTURE, 20, [0, 0, 1, 1]) && !hasPart(PICTURE, 21, [0, 0, 1, 1]), "from far out");
  assert.ok(!hasPart({ ...PICTURE, bounds: null }, 1, [0, 0, 1, 1]));
  assert.ok(meet([0, 0, 2, 2], [1, 1, 3, 3]) && !meet([0, 0, 1, 1], [1, 0, 2, 1]), "boxes side by side");
  assert.deepEqual(padded([0, 0, 100, 40], 0.25), [-25, -10, 125, 50]);
  assert.ok(isIn([1, 1, 2, 2], [0, 0, 3, 3]) && !isIn([1, 1, 4, 2], [0, 0, 3, 3]));
});

test("what isn't seen is told in words", () => {
  assert.equal(wordsOfMap(NONE, 1, [0, 0, 1, 1]), "can't be shown: GDAL opens no map of it");
  assert.equal(wordsOfMap({ ...SHAPES, bounds: null }, 1, [0, 0, 1, 1]), "has nothing in it");
  assert.equal(wordsOfMap(PICTURE, 1, [2000, 0, 3000, 1]), "lies elsewhere");
  assert.equal(wordsOfMap(PICTURE, 30, [0, 0, 10, 10]), "is seen from nearer on");
  assert.equal(wordsOfMap(PICTURE, 3, [0, 0, 10, 10]) + wordsOfMap(SHAPES, 1e6, [0, 0, 110, 110]), "");
});

test("names have room, and none lies over another", () => {
  const at = (text, x, y) => ({ text, x, y }), found = (names, most = 9) => withRoom(names, most).map(it => it.text);
  assert.deepEqual(found([at("12/1", 100, 100), at("12/2", 110, 105), at("12/3", 100, 130)]), ["12/1", "12/3"]);
  assert.deepEqual(found([at("a", 0, 0), at("b", 100, 0), at("c", 200, 0)], 2), ["a", "b"]);
  const many = Array.from({ length: 400 }, (_, it) => at("1234", it % 20 * 15, Math.floor(it / 20) * 15));
  const left = withRoom(many, 400), isFree = (one, other) =>
    Math.abs(one.x - other.x) >= 28 || Math.abs(one.y - other.y) >= 18;
  for (const [number, one] of left.entries()) assert.ok(left.slice(number + 1).every(other => isFree(one, other)));
});

test("a package without a map has one over those behind it, whose zooms cover all of them", () => {
  const { content, known } = laidOver([PICTURE, SHAPES, NONE], ONLY), [left, low, right, high] = content.extent;
  assert.deepEqual([content.table, content.srs_id, known.bounds], ["", ONLY, [0, 0, 1000e6, 500e6]]);
  assert.ok(left <= 0 && low <= 0 && right >= 1000e6 && high >= 500e6, content.extent.join());
  for (const it of known.matrices) {
    assert.equal(it.matrix_width * it.tile_width * it.pixel_x_size, right - left, `zoom ${it.zoom_level}`);
    assert.equal(it.matrix_height * it.tile_height * it.pixel_y_size, high - low, `zoom ${it.zoom_level}`);
  }
  assert.ok(known.matrices.at(-1).pixel_x_size <= 0.5e6 && known.matrices[0].matrix_width === 1);
  assert.equal(laidOver([NONE, { ...SHAPES, bounds: null }], ONLY), null);
  assert.ok(laidOver([{ ...SHAPES, bounds: [5, 5, 5, 5] }], ONLY).known.matrices.length > 0, "a single point");
  const wide = laidOver([{ ...PICTURE, bounds: [0, 0, 4e7, 2e7], finest: 1e-5 }], ONLY).known.matrices;
  assert.ok(wide.length <= 23 && wide.every(it => Number.isSafeInteger(it.pixel_x_size)));
});

/** A JPEG whose Exif has a GPS part of entries [tag, type, count, value], a rational's value being pairs of numbers. */
function jpegWith(entries, { least = true, before = [] } = {}) {
  const at = 26, rationals = at + 6 + 12 * entries.length;
  const tiff = new DataView(new ArrayBuffer(rationals + 24 * entries.length));
  const short = (to, value) => tiff.setUint16(to, value, least);
  const long = (to, value) => tiff.setUint32(to, value, least);
  short(0, least ? 0x4949 : 0x4d4d); short(2, 42); long(4, 8);
  short(8, 1); short(10, 0x8825); short(12, 4); long(14, 1); long(18, at);
  short(at, entries.length);
  for (const [number, [tag, type, count, value]] of entries.entries()) {
    const to = at + 2 + 12 * number, there = rationals + 24 * number;
    short(to, tag); short(to + 2, type); long(to + 4, count);
    if (type === 2) tiff.setUint8(to + 8, value.charCodeAt(0)); else long(to + 8, there);
    if (type === 5) value.flat().forEach((it, place) => long(there + 4 * place, it));
  }
  const size = 8 + tiff.byteLength, head = [0xff, 0xe1, size >> 8, size & 255, ...Buffer.from("Exif\0\0")];
  const body = [...head, ...new Uint8Array(tiff.buffer), 0xff, 0xda, 0, 2, 1, 2, 3];
  return Uint8Array.from([0xff, 0xd8, ...before, ...body]).buffer;
}

test("a photo tells its place by Exif, in either order of bytes, behind other segments", () => {
  const north = [[50, 1], [33, 1], [720, 100]], east = [[9, 1], [18, 100], [0, 1]];
  const entries = [[1, 2, 2, "N"], [2, 5, 3, north], [3, 2, 2, "E"], [4, 5, 3, east]];
  const near = ({ latitude, longitude }) => Math.abs(latitude - 50.552) + Math.abs(longitude - 9.003) < 1e-9;
  const others = [0xff, 0xe0, 0, 4, 1, 2, 0xff, 0xe1, 0, 12, ...Buffer.from("http://ns/")];
  for (const how of [{}, { least: false }, { before: others }]) {
    assert.ok(near(placeOfPhoto(jpegWith(entries, how))), JSON.stringify(how));
  }
  const south = placeOfPhoto(jpegWith([[1, 2, 2, "S"], [2, 5, 3, north], [3, 2, 2, "W"], [4, 5, 3, east]]));
  assert.ok(Math.abs(south.latitude + 50.552) + Math.abs(south.longitude + 9.003) < 1e-9);
});

test("what tells no place offers none", () => {
  const zero = [[0, 1], [0, 1], [0, 1]], north = [[50, 1], [33, 1], [0, 1]];
  const told = (side, latitude, other, longitude) =>
    jpegWith([[1, 2, 2, side], [2, 5, 3, latitude], [3, 2, 2, other], [4, 5, 3, longitude]]);
  const none = { "no degrees": jpegWith([[1, 2, 2, "N"]]), "zero and zero": told("N", zero, "E", zero),
    "0 of 0": told("N", [[0, 0], [0, 0], [0, 0]], "E", north),
    "91 degrees": told("N", [[91, 1], [0, 1], [0, 1]], "E", north),
    "a strange letter": told("X", north, "E", north), "no photo": new ArrayBuffer(0),
    "a text": new TextEncoder().encode("ten bytes\n").buffer,
    "no Exif": Uint8Array.from([0xff, 0xd8, 0xff, 0xda, 0, 2]).buffer };
  for (const [words, bytes] of Object.entries(none)) assert.equal(placeOfPhoto(bytes), null, words);
});

test("no bytes of a photo are a fault", () => {
  const north = [[50, 1], [33, 1], [0, 1]];
  const whole = new Uint8Array(jpegWith([[1, 2, 2, "N"], [2, 5, 3, north], [3, 2, 2, "E"], [4, 5, 3, north]]));
  for (let size = 0; size < whole.length; size++) {
    assert.doesNotThrow(() => placeOfPhoto(whole.slice(0, size).buffer), `the first ${size} bytes`);
  }
  for (const [at, byte] of whole.entries()) {
    for (const value of [0, 255, byte ^ 1]) {
      const turned = whole.map((it, place) => place === at ? value : it);
      assert.doesNotThrow(() => placeOfPhoto(turned.buffer), `${value} at ${at}`);
    }
  }
  assert.ok(HEAD >= 65536);
});

test("a photo's place is reckoned where the page can, as gdaltransform has it", () => {
  const { east, north } = placeInSystem(UTM, { longitude: 9.005, latitude: 50.552 });
  assert.ok(Math.abs(east - 500354.216) < 0.01 && Math.abs(north - 5600007.53) < 0.01, `${east} ${north}`);
  assert.equal(placeInSystem(undefined, { longitude: 9, latitude: 50 }), null, "a system that isn't reckoned");
  assert.equal(placeInSystem(UTM, { longitude: 20, latitude: 50 }), null, "too far from the meridian");
});

test("slips are counted, in words", () => {
  const maps = [{ srs_id: ONLY, extent: [0, 0, 100e6, 200e6], identifier: "Base" }];
  for (const [note, slip] of [["@50/60 oak", ""], ["oak", ""], ["a@b.c", ""], ["@50/60 @x", ""],
    ["oak @ the gate", "none"], ["@50,5/60,25", "none"], ["@50/60weg", "none"],
    ["@60/250", "outside"], ["@7:50/60", "outside"]]) {
    assert.equal(slipOf(note, maps, ONLY), slip, note);
  }
  assert.equal(slipOf("@60/250", [], null), "none", "a place of no system");
  assert.equal(slipOf("@7:60/250", [], null), "", "a package without a map");
  assert.ok(isOnMap({ system: ONLY, east: "100", north: "200.0" }, maps));
  assert.ok(!isOnMap({ system: 7, east: "1", north: "1" }, maps), "of another system");
  const rows = ["@50,5/60,25", "@50/60weg", "@60/250", "oak"].map(note => ({ note }));
  const tiny = { srs_id: ONLY, extent: [565000, 5933000, 567048, 5935048], identifier: "Plan" };
  assert.ok(isTiny(tiny) && !isTiny(maps[0]));
  assert.equal(wordsOfSlips(rows, [...maps, tiny], ONLY), "2 rows have a word with @ that is no place; " +
    "1 row has its place outside all maps; less than a metre wide or high: Plan");
  assert.equal(wordsOfSlips([{ note: "oak" }], maps, ONLY), "");
});
