// Lines, areas and tracks of a row. Degrees are by gdaltransform from EPSG:25832 to EPSG:4258, lengths and areas by
// hand.

import assert from "node:assert/strict";
import { test } from "node:test";

import { MOST_CORNERS, cornersDrawn, geoJsonOfShape, partsIn, shapeOfGeoJson, whyNoShape, wordsOfDrawing,
  wordsOfShape } from "../../../tools/page/lines.mjs";
import { GEOJSON, GPX, isPaper, isShape, kindOfFile, nounOf, typeOfFile } from "../../../tools/page/media.mjs";
import { isShapeNumber, numberAt, shapeNumberAt } from "../../../tools/page/notes.mjs";
import { isClockwise, nearestWithin } from "../../../tools/page/plane.mjs";
import { MOST_OFF, MOST_PLACES, gpxOfTrack, lengthOfTrack, metresBetween, partsOfTrack, shapeOfGpx, shapeOfText,
  walked } from "../../../tools/page/tracks.mjs";

const UTM = { semi_major: 6378137, inverse_flattening: 298.257222101, central_meridian: 9, latitude_of_origin: 0,
  scale_factor: 0.9996, false_easting: 500000, false_northing: 0 };
const LINE = [[500070, 5600060], [500350, 5600300]];
const TRIANGLE = [[500070, 5600060], [500350, 5600300], [500350, 5600060]];  // 280 by 240, and 368.78 metres
const DEGREES = [[9.000988108, 50.552471971], [9.004940766, 50.554630237], [9.00494054, 50.552471871]];
const bytesOf = text => new TextEncoder().encode(text).buffer;

test("a line as GeoJSON", () => {
  assert.deepEqual(JSON.parse(geoJsonOfShape("line", 25832, LINE, UTM)), {
    type: "Feature", geometry: { type: "LineString", coordinates: DEGREES.slice(0, 2) },
    properties: { kind: "line", system: 25832, corners: LINE } });
});

test("an area's ring goes against the clock, and is closed; its corners stay as they were drawn", () => {
  const ring = [DEGREES[0], DEGREES[2], DEGREES[1], DEGREES[0]];
  for (const drawn of [TRIANGLE, [...TRIANGLE, TRIANGLE[0]]]) {
    const told = JSON.parse(geoJsonOfShape("area", 25832, drawn, UTM));
    assert.deepEqual(told.geometry, { type: "Polygon", coordinates: [ring] });
    assert.deepEqual(told.properties.corners, TRIANGLE);
  }
  const other = [TRIANGLE[0], TRIANGLE[2], TRIANGLE[1]];
  assert.deepEqual(JSON.parse(geoJsonOfShape("area", 25832, other, UTM)).geometry.coordinates, [ring]);
});

test("without degrees a shape has no geometry, and its corners are exact", () => {
  const plan = [[1.000001, -2], [999999999.999999, 5.25]];
  const told = geoJsonOfShape("line", 7, plan), far = geoJsonOfShape("line", 25832, [[1e8, 0], [0, 0]], UTM);
  assert.deepEqual([JSON.parse(told).geometry, JSON.parse(far).geometry], [null, null]);
  assert.deepEqual(shapeOfGeoJson(told), { kind: "line", system: 7, corners: [plan], degrees: null });
  const date = { ...UTM, central_meridian: 177 };  // from 179.9998 to -179.9998 degrees
  assert.equal(JSON.parse(geoJsonOfShape("line", 32660, [[833950, 0], [834000, 0]], date)).geometry, null);
});

test("what is read of GeoJSON", () => {
  const told = shapeOfGeoJson(geoJsonOfShape("area", 25832, TRIANGLE, UTM));
  assert.deepEqual([told.kind, told.system, told.corners], ["area", 25832, [TRIANGLE]]);
  assert.deepEqual(told.degrees, [[DEGREES[0], DEGREES[2], DEGREES[1]]]);
  const high = { type: "LineString", coordinates: [[9, 50, 3], [9, 51]] };
  const other = { type: "Feature", properties: null, geometry: high };
  assert.deepEqual(shapeOfGeoJson(JSON.stringify(other)),
    { kind: "line", system: null, corners: null, degrees: [[[9, 50], [9, 51]]] });
  const none = ["", "[]", "null", '{"type":"FeatureCollection","features":[]}', '{"type":"Feature"}',
    ...[{ type: "Point", coordinates: [9, 50] }, { type: "LineString", coordinates: [[9, 50]] },
      { type: "LineString", coordinates: [[9, 50], [9, "x"]] },
      { type: "LineString", coordinates: [[9, 50], [9, 1e9]] },
      { type: "Polygon", coordinates: [[], []] }].map(it => JSON.stringify({ type: "Feature", geometry: it })),
    ...[{ kind: "line", system: 7, corners: [[1, 2]] }, { kind: "area", system: 7, corners: [[0, 0], [1, 1]] },
      { kind: "line", system: 7, corners: [[1, 2], [3, 1e10]] }, { kind: "line", system: "x", corners: LINE }]
      .map(it => JSON.stringify({ type: "Feature", geometry: null, properties: it }))];
  for (const text of none) assert.equal(shapeOfGeoJson(text), null, text);
});

test("a shape in the metres of a map", () => {
  const told = shapeOfGeoJson(geoJsonOfShape("line", 25832, LINE, UTM));
  assert.deepEqual(partsIn(told, 25832), [LINE], "its own system needs no parameters");
  assert.equal(partsIn(told, 7), null);
  const [[[east, north]]] = partsIn(told, 4711, UTM);
  assert.ok(Math.hypot(east - 500070, north - 5600060) < 0.001, `${east} ${north}`);
  assert.equal(partsIn({ kind: "line", system: 7, corners: [LINE], degrees: null }, 25832, UTM), null);
  const far = { kind: "line", system: null, corners: null, degrees: [[[9, 50], [80, 50]]] };
  assert.equal(partsIn(far, 25832, UTM), null);
});

test("when a drawing is a line or an area", () => {
  assert.equal(whyNoShape("line", LINE.slice(1)), "A line has two corners at least.");
  assert.equal(whyNoShape("line", LINE), "");
  for (const few of [LINE, [...LINE, LINE[0]]]) {
    assert.equal(whyNoShape("area", few), "An area has three corners at least.");
  }
  assert.equal(whyNoShape("area", [...TRIANGLE, TRIANGLE[0]]), "");
  assert.equal(whyNoShape("area", [[0, 0], [10, 10], [10, 0], [0, 10]]), "The edge crosses itself: take corners back.");
  assert.equal(whyNoShape("area", [[0, 0], [1, 1], [2, 2]]), "The corners enclose nothing.");
  assert.deepEqual(cornersDrawn("line", [...LINE, LINE[0]]), [...LINE, LINE[0]], "a line may end where it began");
  assert.ok(MOST_CORNERS * 100 < 4194304 && isClockwise(TRIANGLE) && !isClockwise([...TRIANGLE].reverse()));
});

test("what is said of drawings and shapes", () => {
  const said = kind => [0, 1, 2, 3].map(it => wordsOfDrawing(kind, TRIANGLE.slice(0, it)));
  assert.deepEqual(said("line"), ["Tap the corners of the line on the map.", "Tap the next corner.", "Line 368.8 m",
    "Line 608.8 m (last 240.0 m)"]);
  assert.deepEqual(said("area"), ["Tap the corners of the area on the map.", "Tap the next corner.",
    "Side 368.8 m. Tap the next corner.", "Area 33,600 m², 888.8 m around (last 240.0 m)"]);
  assert.equal(wordsOfDrawing("area", [[0, 0], [10, 10], [10, 0], [0, 10]]), "No area: it crosses itself");
  assert.equal(wordsOfShape({ kind: "line" }, [LINE]), "Line, 368.8 m");
  assert.equal(wordsOfShape({ kind: "area" }, [TRIANGLE]), "Area, 33,600 m², 888.8 m around");
  const walk = [[[0, 0], [3, 4]], [[50, 0], [60, 0]]];
  assert.deepEqual([90, 600, 9000].map(seconds => wordsOfShape({ kind: "track", seconds }, walk)),
    ["Track, 15.00 m in 90 s", "Track, 15.00 m in 10 min", "Track, 15.00 m in 2.5 h"]);
  assert.equal(wordsOfShape({ kind: "area" }, null), "Area");
});

test("the nearest place within reach", () => {
  const places = [[0, 0], [10, 0], [10, 3]];
  assert.deepEqual(nearestWithin([9, 1], places, 5), [10, 0]);
  assert.deepEqual(nearestWithin([5, 0], places, 5), [0, 0], "at the very reach, the first of two");
  assert.equal(nearestWithin([5, 1], places, 5), null);
  assert.equal(nearestWithin([5, 1], [], 5), null);
});

test("files that are lines, areas and tracks are told by their bytes and their numbers", () => {
  const gpx = gpxOfTrack([]), files = [geoJsonOfShape("line", 7, LINE), gpx, '\ufeff<gpx version="1.1">',
    '<?xml version="1.0"?>\n<!-- by a receiver -->\n<gpx\n>'];
  assert.deepEqual(files.map(it => typeOfFile(bytesOf(it))), [GEOJSON, GPX, GPX, GPX]);
  const others = ['{"a":1}', "<?xml version='1.0'?><kml>", "gpx", '{"features":[]}'];
  assert.deepEqual(others.map(it => typeOfFile(bytesOf(it))), [null, null, null, null]);
  assert.deepEqual([GEOJSON, GPX, "application/pdf", "audio/ogg"].map(kindOfFile), ["Shape", "Track", "PDF", "Sound"]);
  assert.deepEqual([GEOJSON, GPX, "application/json", null].map(isShape), [true, true, false, false]);
  assert.deepEqual([GEOJSON, GPX].map(it => [nounOf(it), isPaper(it)]), [["shape", true], ["track", true]]);
  const now = Date.UTC(2026, 5, 15), chance = [7, 0x1234a0b5];
  assert.deepEqual([shapeNumberAt(now, chance) % 4096, numberAt(now, chance) % 4096], [0xfb5, 0x0b5]);
  assert.equal(Math.floor(shapeNumberAt(now, chance) / 4096), Math.floor(numberAt(now, chance) / 4096));
  const numbers = [shapeNumberAt(now, chance), shapeNumberAt(0, chance), numberAt(now, chance), 4095, 3840];
  assert.deepEqual(numbers.map(isShapeNumber), [true, true, false, false, false]);
});

const NOON = Date.UTC(2026, 5, 15, 12);
const fix = (longitude, latitude, more) => ({ longitude, latitude, accuracy: 5, height: null, ...more });
/** The steps of fixes, each with its second. */
const stepsOf = fixes => fixes.reduce(({ walk, steps }, [second, it]) => {
  const told = walked(walk, it, NOON + 1000 * second);
  return { walk: told.walk, steps: told.step ? [...steps, told.step] : steps };
}, { walk: { last: null, heard: null }, steps: [] }).steps;

test("what is kept of a walk", () => {
  // A degree of latitude has 111,229 metres at 50 degrees, one of longitude 111,320 at the equator.
  assert.ok(Math.abs(metresBetween(fix(9, 50), fix(9, 50.0001)) - 11.1229) < 0.001);
  assert.ok(Math.abs(metresBetween(fix(179.9999, 0), fix(-179.9999, 0)) - 22.264) < 0.001);
  const steps = stepsOf([[0, fix(9, 50)], [1, fix(9, 50.00002)], [2, fix(9, 50.00005)],
    [3, fix(9, 50.0002, { accuracy: MOST_OFF + 1 })], [4, fix(9, 50.0001, { accuracy: 20 })],
    [5, fix(9, 50.0002, { accuracy: 20 })]]);
  assert.deepEqual(steps.map(it => it.latitude), [50, 50.00005, 50.0002], "5 metres on, and 10 where it is less exact");
  const near = stepsOf([[0, fix(9, 50, { accuracy: null })], [1, fix(9, 50.00001)],
    [2, fix(9, 50.00002, { accuracy: 0.02 })]]);
  assert.deepEqual(near.map(it => it.latitude), [50, 50.00002], "2 metres at least");
  const parts = partsOfTrack(stepsOf([[0, fix(9, 50)], [2, fix(9, 50.0001)], [63, fix(9, 50.0001)],
    [64, fix(9, 50.0002)]]));
  assert.deepEqual(parts.map(it => it.length), [2, 2], "a part begins where none came for a minute");
  assert.ok(Math.abs(lengthOfTrack(parts.flat()) - 2 * 11.1229) < 0.001);
  assert.deepEqual(walked({ last: null, heard: null }, fix(9, 50), 0).step,
    { longitude: 9, latitude: 50, height: null, at: null, begins: true });
});

test("a track as GPX, and what is read of it", () => {
  const steps = stepsOf([[0, fix(9, 50, { height: 181.504 })], [9, fix(9.0002, 50)], [100, fix(9.0002, 50.001)]]);
  const text = gpxOfTrack(steps);
  assert.equal(text, `<?xml version="1.0" encoding="UTF-8"?>
<gpx version="1.1" creator="mmpkg" xmlns="http://www.topografix.com/GPX/1/1">
<trk>
<trkseg>
<trkpt lat="50.000000000" lon="9.000000000"><ele>181.50</ele><time>2026-06-15T12:00:00.000Z</time></trkpt>
<trkpt lat="50.000000000" lon="9.000200000"><time>2026-06-15T12:00:09.000Z</time></trkpt>
</trkseg>
<trkseg>
<trkpt lat="50.001000000" lon="9.000200000"><time>2026-06-15T12:01:40.000Z</time></trkpt>
</trkseg>
</trk>
</gpx>
`);
  assert.deepEqual(shapeOfText(GPX, text), { kind: "track", system: null, corners: null,
    degrees: [[[9, 50], [9.0002, 50]], [[9.0002, 50.001]]], seconds: 100 });
  assert.equal(shapeOfText(GEOJSON, geoJsonOfShape("line", 7, LINE)).kind, "line");
  const none = [gpxOfTrack([]), "", "<gpx><trk><trkseg><trkpt lat='x' lon='9'/></trkseg></trk></gpx>"];
  assert.deepEqual(none.map(shapeOfGpx), [null, null, null]);
  const longest = { longitude: -179.123456789, latitude: -50.123456789, height: -1234.56, at: NOON, begins: false };
  const whole = gpxOfTrack(Array.from({ length: MOST_PLACES }, () => longest));
  assert.ok(whole.length < 4194304, "the longest is a media item");
});
