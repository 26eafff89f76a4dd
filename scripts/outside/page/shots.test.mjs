// Pictures of the page's own camera, and pictures made smaller: what their Exif tells is what Debian's python3-piexif
// reads from it, where that is there.

import assert from "node:assert/strict";
import { spawnSync } from "node:child_process";
import { test } from "node:test";

import { placeOfPhoto } from "../../../tools/page/exif.mjs";
import { isJpeg, segmentCarried, segmentOfShot } from "../../../tools/page/exifout.mjs";
import { directionOf, placeOfShot, whyNoCamera, wordsOfShot } from "../../../tools/page/shots.mjs";

// A JPEG of nothing but its ends: what stands between is put in.
const [BEGIN, END] = [[0xff, 0xd8], [0xff, 0xe0, 0, 4, 0, 0, 0xff, 0xda, 0, 2, 0xff, 0xd9]];
const AT = Date.UTC(2026, 5, 15, 22, 31, 9, 400);
const PLACE = { longitude: 9.005, latitude: 50.552, accuracy: 4.23, at: AT - 1400 };

// What piexif loads of a JPEG: by part, each value by its tag, bytes as hexadecimal digits.
const LOAD = `
import json, sys
import piexif
plain = lambda it: it.hex() if isinstance(it, bytes) else it
parts = piexif.load(sys.stdin.buffer.read())
told = {name: {str(tag): plain(it) for tag, it in parts[name].items()} for name in ("0th", "Exif", "GPS", "1st")}
json.dump(told | {"thumbnail": len(parts["thumbnail"] or b"")}, sys.stdout)
`;
// A JPEG whose camera stood on its side, with a small picture, made by piexif: ORDER is how its numbers are told.
const DUMP = `
import sys
import piexif
small = bytes.fromhex("ffd8ffe000040000ffda0002ffd9")
exif = piexif.dump({"0th": {piexif.ImageIFD.Make: b"Camera", piexif.ImageIFD.Orientation: 6},
    "Exif": {piexif.ExifIFD.DateTimeOriginal: b"2026:06:15 12:00:00", piexif.ExifIFD.PixelXDimension: 4000,
        piexif.ExifIFD.PixelYDimension: 3000, piexif.ExifIFD.MakerNote: b"note of the maker"},
    "GPS": {piexif.GPSIFD.GPSLatitudeRef: b"S", piexif.GPSIFD.GPSLatitude: ((33, 1), (30, 1), (0, 1)),
        piexif.GPSIFD.GPSLongitudeRef: b"W", piexif.GPSIFD.GPSLongitude: ((70, 1), (15, 1), (0, 1))},
    "1st": {piexif.ImageIFD.Orientation: 6}, "thumbnail": small})
sys.stdout.buffer.write(b"\\xff\\xe1" + (len(exif) + 2).to_bytes(2, "big") + exif)
`;

const DEBIAN = "/usr/bin/python3";  // another Python that the path names knows no package of Debian's
const python = (script, input) => spawnSync(DEBIAN, ["-c", script], { input });
const hasPiexif = python("import piexif", "").status === 0;
const how = { skip: hasPiexif ? false : "apt-get install python3-piexif" };
const ascii = hex => Buffer.from(hex, "hex").toString().replace(/\0$/, "");
const jpegOfParts = segment => Uint8Array.from([...BEGIN, ...segment, ...END]);

function loaded(segment) {
  const said = python(LOAD, jpegOfParts(segment));
  assert.equal(said.status, 0, String(said.stderr));
  return JSON.parse(said.stdout);
}

test("when, where and in which direction a picture was taken, as piexif reads it", how, () => {
  const { Exif: exif, GPS: gps } = loaded(segmentOfShot({ at: AT, ahead: 120, place: PLACE, direction: 63.456 }));
  assert.deepEqual([0x9003, 0x9004, 0x9011, 0x9012, 0x9000].map(it => ascii(exif[it])),
    ["2026:06:16 00:31:09", "2026:06:16 00:31:09", "+02:00", "+02:00", "0232"]);
  assert.deepEqual([1, 3, 16, 18, 29].map(it => ascii(gps[it])), ["N", "E", "M", "WGS-84", "2026:06:15"]);
  assert.deepEqual(gps[2], [[50, 1], [33, 1], [720000, 100000]]);
  assert.deepEqual(gps[4], [[9, 1], [0, 1], [1800000, 100000]]);
  assert.deepEqual(gps[7], [[22, 1], [31, 1], [8, 1]], "the time of the place, by UTC");
  assert.deepEqual([gps[17], gps[31]], [[6346, 100], [423, 100]], "direction and accuracy");
});

test("a picture tells no more than the device does", how, () => {
  const bare = loaded(segmentOfShot({ at: AT, ahead: -210, place: null, direction: null }));
  assert.deepEqual(bare.GPS, {});
  assert.deepEqual([0x9003, 0x9011].map(it => ascii(bare.Exif[it])), ["2026:06:15 19:01:09", "-03:30"]);
  const turned = loaded(segmentOfShot({ at: AT, ahead: 0, place: null, direction: 359.999 })).GPS;
  assert.deepEqual([turned[2], turned[29], turned[17]], [undefined, undefined, [0, 100]]);
  for (const wrong of [0, Date.UTC(2020, 0, 1), Date.UTC(2060, 0, 1)]) {
    const { Exif: exif } = loaded(segmentOfShot({ at: wrong, ahead: 0, place: PLACE }));
    assert.deepEqual(Object.keys(exif), [String(0x9000)], "where the clock can't be right");
  }
  const far = loaded(segmentOfShot({ at: AT, ahead: 0, place: { ...PLACE, accuracy: Infinity } })).GPS;
  assert.equal(far[31], undefined, "an accuracy that is none");
  const untold = loaded(segmentOfShot({ at: AT, ahead: 0, place: { ...PLACE, accuracy: null } })).GPS;
  assert.deepEqual([untold[31], untold[1]], [undefined, "4e"], "an accuracy that isn't told");
  const told = { longitude: 9.005, latitude: 50.552, accuracy: 0.02, height: 181.5, heightWithin: null, words: "" };
  const came = { ticks: 5, clock: AT - 1400 }, { at, accuracy } = placeOfShot({ ...told, came, by: "receiver" });
  assert.deepEqual([at, accuracy], [AT - 1400, 0.02], "a receiver's place");
});

test("a picture's place comes back as it was told", () => {
  for (const [longitude, latitude] of [[9.005, 50.552], [-70.25, -33.5], [0.00001, -0.00001], [179.9999999, 89.9999999],
    [-180, -90], [59.9999999999, 0.9999999999]]) {
    const place = { longitude, latitude, accuracy: 1, at: AT };
    const found = placeOfPhoto(jpegOfParts(segmentOfShot({ at: AT, ahead: 0, place })).buffer);
    const off = [found.longitude - longitude, found.latitude - latitude].map(Math.abs);
    assert.ok(Math.max(...off) < 2e-9, `${longitude} ${latitude}: ${JSON.stringify(found)}`);
  }
});

test("a picture that is made smaller keeps its Exif, upright and without the camera's small one", how, () => {
  const made = python(DUMP, "");
  assert.equal(made.status, 0, String(made.stderr));
  const before = loaded(made.stdout);
  assert.equal(before.thumbnail > 0 && before["0th"][0x0112], 6);
  const after = loaded(segmentCarried(jpegOfParts(made.stdout).buffer, 1536, 2048));
  assert.equal(after.thumbnail, 0);
  assert.deepEqual(after["1st"], {});
  const wanted = { ...before, thumbnail: 0, "1st": {}, "0th": { ...before["0th"], [0x0112]: 1 } };
  wanted.Exif = { ...before.Exif, [0xa002]: 1536, [0xa003]: 2048 };
  for (const part of ["0th", "Exif", "GPS"]) {
    // Where the parts stand isn't theirs, but the file's: they stay where they were.
    assert.deepEqual(after[part], wanted[part], part);
  }
});

test("nothing of Exif that is cut or turned throws, and nothing of it is carried that isn't whole", () => {
  const whole = jpegOfParts(segmentOfShot({ at: AT, ahead: 60, place: PLACE, direction: 1 }));
  const segment = whole.length - BEGIN.length - END.length;
  for (let size = 0; size <= whole.length; size++) {
    const found = segmentCarried(whole.slice(0, size).buffer, 1, 1);
    assert.equal(found !== null, size >= BEGIN.length + segment, `the first ${size} bytes`);
  }
  for (let at = 2; at < BEGIN.length + segment; at++) {
    for (const value of [0, 1, 0x7f, 0x80, 0xff]) {
      const turned = whole.slice();
      turned[at] = value;
      assert.doesNotThrow(() => segmentCarried(turned.buffer, 1, 1), `${value} at ${at}`);
    }
  }
  assert.equal(segmentCarried(jpegOfParts([]).buffer, 1, 1), null, "a JPEG without Exif");
  for (const bytes of [[], [0xff], [0xff, 0xd8], [0x89, 0x50, 0x4e, 0x47]]) {
    const { buffer } = Uint8Array.from(bytes);
    assert.deepEqual([isJpeg(buffer), segmentCarried(buffer, 1, 1)], [false, null], String(bytes));
  }
  assert.ok(isJpeg(whole.buffer));
});

test("where a camera on the back looks", () => {
  const upright = alpha => directionOf(alpha, 90, 0);
  for (const [alpha, direction] of [[0, 0], [90, 270], [180, 180], [270, 90], [45, 315]]) {
    assert.ok(Math.abs(upright(alpha) - direction) < 1e-9, `${alpha}: ${upright(alpha)}`);
  }
  // On its side, the upper end to the left: the camera looks to where the device's right side was turned by alpha.
  assert.ok(Math.abs(directionOf(0, 0, -90) - 90) < 1e-9 && Math.abs(directionOf(0, 0, 90) - 270) < 1e-9);
  for (const flat of [[0, 0, 0], [12, 5, -5], [0, 180, 0]]) assert.equal(directionOf(...flat), null, String(flat));
  for (const none of [[null, 90, 0], [0, null, 0], [0, 90, null]]) assert.equal(directionOf(...none), null);
});

test("what is said of the camera", () => {
  assert.equal(wordsOfShot(null, null), "The picture tells the time, no place: the device tells none yet.");
  assert.equal(wordsOfShot({ accuracy: 4.2 }, 359.7),
    "The picture tells the time, the place (within 5 m), and the direction, 0° (N).");
  assert.equal(wordsOfShot({ accuracy: 0.021 }, null), "The picture tells the time, the place (within 0.03 m).");
  assert.equal(wordsOfShot({ accuracy: null }, null), "The picture tells the time, the place (how exact isn't told).");
  for (const name of ["NotAllowedError", "NotFoundError", "OverconstrainedError", "NotReadableError", "AbortError"]) {
    assert.match(whyNoCamera({ name, message: "" }), /\.$/, name);
  }
  assert.equal(whyNoCamera({ name: "TypeError", message: "" }), "The camera can't be had: TypeError.");
});
