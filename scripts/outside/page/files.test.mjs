// Rows as files: places in degrees, words of notes as columns, and the texts of the three kinds. What is expected is by
// gdaltransform, by Python's note_words of tools/, and by RFC 4180, RFC 7946 and the schema of GPX 1.1.

import assert from "node:assert/strict";
import { test } from "node:test";

import { madeAt, rowsOfDay } from "../../../tools/page/day.mjs";
import { degreesOf } from "../../../tools/page/degrees.mjs";
import { csvOf, geoJsonOf, gpxOf, harmless, listingOf, wordsOfListing } from "../../../tools/page/files.mjs";
import { numberAt } from "../../../tools/page/notes.mjs";
import { columnsIn, freeNames, heightIn, typeOf } from "../../../tools/page/notewords.mjs";
import { projected } from "../../../tools/page/systems.mjs";

const GRS_80 = { semi_major: 6378137, inverse_flattening: 298.257222101 };
const UTM = { ...GRS_80, central_meridian: 9, latitude_of_origin: 0, scale_factor: 0.9996, false_easting: 500000,
  false_northing: 0 };
const STRIP = { ...GRS_80, central_meridian: 10.5, latitude_of_origin: 49.5, scale_factor: 0.99993,
  false_easting: 3500000, false_northing: 0 };
const SOUTH = { semi_major: 6378137, inverse_flattening: 298.257223563, central_meridian: 177, latitude_of_origin: 0,
  scale_factor: 0.9996, false_easting: 500000, false_northing: 10000000 };

test("metres are degrees, as gdaltransform has them", () => {
  for (const [system, east, north, longitude, latitude] of [
    [UTM, 500354.216, 5600007.53, 9.00500000260026, 50.5519999952384],
    [UTM, 770185.680644, -3682753.508127, 11.9000000000023, -33.2500000000006],
    [UTM, 500000, 0, 9, 0],
    [UTM, 166021.443, 0, 5.99999999927726, 0],
    [UTM, 300000, 9300000, -7.02213204700068, 83.4977872756332],
    [UTM, 1200000, 5600000, 18.8038819329469, 50.1366567049281],
    [STRIP, 3500000, 100000, 10.5, 50.3991164227062],
    [STRIP, 3432109.876, -54321.5, 9.57196636577815, 49.0077955291392],
    [STRIP, 3600000, 1200000, 12.3070348270024, 60.2681561558876],
    [SOUTH, 828928.736058689, 11106908.8542431, -180, 10],
  ]) {
    const found = degreesOf(system, east, north);
    const isSame = Math.abs(found.longitude - longitude) < 1e-11 && Math.abs(found.latitude - latitude) < 1e-11;
    assert.ok(isSame, `${east} ${north}: ${JSON.stringify(found)}`);
    const back = projected(system, found.longitude, found.latitude);
    assert.ok(Math.hypot(back.east - east, back.north - north) < 1e-4, `${east} ${north} comes back`);
  }
  assert.equal(degreesOf(UTM, 999999999, 5600000), null, "a slip of digits is nowhere");
});

// By columns_in of tools/note_words.py.
const NOTES = [
  ["kind=oak d=40 by the road", [["kind", "oak"], ["d", "40"]], "by the road"],
  ['by the road kind="old oak" d=40.5', [["kind", "old oak"], ["d", "40.5"]], "by the road"],
  ['say="a ""b"" c" end', [["say", 'a "b" c']], "end"],
  ["kind=oak kind=elm", [["kind", "oak"]], "kind=elm"],
  ['empty="" x', [["empty", ""]], "x"],
  ["@25832:1/2 kind=oak", [["kind", "oak"]], "@25832:1/2"],
  ["a==b", [["a", "=b"]], ""],
  ["x=y=z", [["x", "y=z"]], ""],
  ['"q=1 q2=2', [["q2", "2"]], '"q=1'],
  ['kind=oak\nstate="two\nlines"\ttail', [["kind", "oak"], ["state", "two\nlines"]], "tail"],
  ["na\u00efve=\u00fc\u{1f600} 1=2", [["na\u00efve", "\u00fc\u{1f600}"], ["1", "2"]], ""],
  ['k="open quote', [], 'k="open quote'],
  ["=v k= v", [], "=v k= v"],
  ['k="a"b c="d"', [["c", "d"]], 'k="a"b'],
  ["a=1\u00a0b=2\u3000c=3", [["a", "1"], ["b", "2"], ["c", "3"]], ""],
  ["  padded k=v  ", [["k", "v"]], "padded"],
  ["@k=v", [], "@k=v"],
  ["k=@12/34", [["k", "@12/34"]], ""],
  ["k=\u201cq\u201d", [["k", "\u201cq\u201d"]], ""],
];

test("words of a note are columns, as the office's export has them", () => {
  for (const [note, words, rest] of NOTES) {
    const found = columnsIn(note);
    assert.deepEqual([[...found.words], found.rest], [words, rest], JSON.stringify(note));
  }
  // By type_of and free_names there.
  for (const [values, type] of [
    [["1", "-7", "0"], "INTEGER"], [["123456789012345678"], "INTEGER"], [["9007199254740993"], "INTEGER"],
    [["1", "2.5"], "REAL"], [["1.0", "2"], "REAL"], [["0.0001"], "REAL"], [["-0.0", "1.5"], "REAL"],
    [["123456789012345.1"], "REAL"], [["12345678901234.12"], "REAL"], [["007"], "TEXT"], [["-0"], "TEXT"],
    [["1.50"], "TEXT"], [["0.00001"], "TEXT"], [["123456789012345678", "1.5"], "TEXT"],
    [["9007199254740993", "0.5"], "TEXT"], [["100000000000000000", "0.5"], "TEXT"], [["oak"], "TEXT"], [[""], "TEXT"],
    [["1e5"], "TEXT"], [["0.1", "0.30000000000000004"], "TEXT"], [["1234567890123456789"], "TEXT"], [["2.50"], "TEXT"],
    [["1,5"], "TEXT"], [["+1"], "TEXT"],
  ]) assert.equal(typeOf(values), type, String(values));
  const names = ["kind", "Title", "NOTE", "id", "kind_2", "Kind", "title_2", "geom"];
  assert.deepEqual([...freeNames(names, ["id", "geom", "title", "note", "amount"]).values()],
    ["kind", "Title_2", "NOTE_2", "id_2", "kind_2", "Kind_3", "title_2_2", "geom_2"]);
});

test("a height is a word of a note", () => {
  for (const [note, height] of [["h=123.45", 123.45], ["oak h=-3", -3], ["h=12,5", 12.5], ["h=", null],
    ["h=high", null], ["oh=5", null], ['h="7"', 7], ["", null]]) assert.equal(heightIn(note), height, note);
});

test("a day's rows are those made on it, changed on it here, or waiting", () => {
  const from = Date.UTC(2026, 10, 29, 0), to = Date.UTC(2026, 10, 30, 0), chance = [0, 5];
  const made = [from - 1, from, to - 1, to].map(it => ({ id: numberAt(it, chance) }));
  const wrong = { id: numberAt(0, chance) }, office = [{ id: 1 }, { id: 2 }, { id: 3, waits: "refused" }];
  const found = rowsOfDay([...made, wrong, ...office], { from, to, changed: new Set([2]) });
  assert.deepEqual(found, [made[1], made[2], office[1], office[2]]);
  assert.deepEqual([madeAt(made[1].id), madeAt(wrong.id), madeAt(7)], [from, null, null]);
});

test("no cell is a formula", () => {
  for (const [text, wanted] of [["=1+1", "'=1+1"], ["+49 561", "'+49 561"], ["-leaning", "'-leaning"],
    ["@home", "'@home"], ["\t=1", "\t'=1"], ["\r=1", "\r'=1"], [" =1", " '=1"], ["\uff1d1", "'\uff1d1"],
    ["a;=1", "a;'=1"],
    ["a\n=1", "a\n'=1"], ['"=1"', "\"'=1\""], ['a;"=1', "a;\"'=1"], ["-7", "-7"], ["-7.25", "-7.25"], ["a=b", "a=b"],
    ["a, -b", "a, -b"], ["", ""], ["-7,5", "'-7,5"]]) assert.equal(harmless(text), wanted, JSON.stringify(text));
});

const OF = { table: "spots", identifier: "Spots", when: "2026-11-29T12:00:00Z" };
const row = (id, title, note, amount, waits) => ({ id, title, note, amount, ...waits ? { waits } : {} });
// 500240.5/5600130.25 by gdaltransform: 9.003394902 50.553103698
const LIST = [
  row(9, '=HYPERLINK("x")', '@25832:500240.5/5600130.25 kind=oak say="a ""b"", c"', 12, "waits"),
  row(4, "Stone; 4", "@7:12/34.5 d=40 kind=elm", 0, "refused"),
  row(2, "", "by the\nroad  h=181.5", -7),
];

test("a table has a column for each word, and says how rows stand", () => {
  const text = csvOf(listingOf(OF, LIST, 25832, { 25832: UTM }));
  assert.equal(text, "\ufeffid,title,note,amount,state,system,east,north,longitude,latitude,h,d,kind,say\r\n"
    + '9,"\'=HYPERLINK(""x"")",,12,to send,25832,500240.5,5600130.25,9.003394902,50.553103698,,,oak,"a ""b"", c"\r\n'
    + '4,"Stone; 4",,0,refused,7,12,34.5,,,,40,elm,\r\n'
    + '2,,"by the\nroad",-7,in the package,,,,,,181.5,,,\r\n');
});

test("features have points in degrees, or say why they have none", () => {
  const listing = listingOf(OF, LIST, 25832, { 25832: UTM }), told = JSON.parse(geoJsonOf(listing));
  assert.deepEqual(Object.keys(told), ["type", "name", "description", "features"]);
  assert.ok(told.features.every(it => it.type === "Feature"));
  assert.deepEqual(told.features.map(it => [it.id, it.geometry]), [
    [9, { type: "Point", coordinates: [9.003394902, 50.553103698] }], [4, null], [2, null]]);
  assert.deepEqual(told.features[1].properties, { id: 4, title: "Stone; 4", note: "", amount: 0, state: "refused",
    system: 7, east: 12, north: 34.5, h: null, d: 40, kind: "elm", say: null });
  assert.equal(told.features[2].properties.h, 181.5);
  assert.equal(told.description, "3 rows of Spots (spots), listed 2026-11-29T12:00:00Z. "
    + "Not in the package yet: 2 rows, whose state says why. "
    + "Longitude and latitude are of WGS 84, for which ETRS89 is taken: less than a metre. "
    + "What has no place has no geometry: 1 row. What has a place that the page can't tell in degrees has no geometry; "
    + "in metres: Stone; 4 at east 12, north 34.5 of system 7.");
  const long = listingOf(OF, [row(1, "a", "n=123456789012345678", 0)], null, {});
  assert.match(geoJsonOf(long), /"n":123456789012345678\}/, "a number keeps its digits");
});

test("waypoints have the places that the page can tell, and name the others", () => {
  const bare = [row(5, "A <b> & \u0001\u{1f600}", "@25832:500240.5/5600130.25 h=181.5 d=4", 3)];
  const text = gpxOf(listingOf(OF, [...LIST, ...bare], 25832, { 25832: UTM }));
  const points = text.split("\n").filter(it => it.startsWith("<wpt"));
  assert.deepEqual(points, [
    '<wpt lat="50.553103698" lon="9.003394902"><name>=HYPERLINK(&#34;x&#34;)</name><cmt>to send</cmt>'
      + "<desc>amount: 12", '<wpt lat="50.553103698" lon="9.003394902"><ele>181.5</ele><name>A &#60;b&#62; &#38; \ufffd'
      + "\u{1f600}</name><cmt>in the package</cmt><desc>amount: 3"]);
  assert.match(text, /What has no place is left out: 1 row\. /);
  assert.match(text, /degrees is left out; in metres: Stone; 4 at east 12, north 34\.5/);
  assert.match(wordsOfListing(listingOf(OF, [], null, {}), "gpx"), /^0 rows of Spots/);
});
