// What a GNSS receiver tells: sentences of receivers as their makers' manuals have them, in pieces, cut, broken, and
// with garbage between. Degrees are by hand: 47° 17.11399' is 47 + 17.11399 / 60.

import assert from "node:assert/strict";
import { test } from "node:test";

import { newReceiver, sentenceOf } from "../../../tools/page/nmea.mjs";

const CLASSIC = ["$GPGGA,123519,4807.038,N,01131.000,E,1,08,0.9,545.4,M,46.9,M,,*47",
  "$GPRMC,123519,A,4807.038,N,01131.000,E,022.4,084.4,230394,003.1,W*6A",
  "$GPGSA,A,3,04,05,,09,12,,,24,,,,,2.5,1.3,2.1*39"];
const UBLOX = ["$GPGGA,092725.00,4717.11399,N,00833.91590,E,1,08,1.01,499.6,M,48.0,M,,*5B",
  "$GPRMC,083559.00,A,4717.11437,N,00833.91522,E,0.004,77.52,091202,,,A*57",
  "$GPGST,082356.00,1.8,,,,1.7,1.3,2.2*7E"];
const TRIMBLE = ["$GPGGA,172814.0,3723.46587704,N,12202.26957864,W,2,6,1.2,18.893,M,-25.669,M,2.0,0031*4F",
  "$GPGST,172814.0,0.006,0.023,0.020,273.6,0.023,0.020,0.031*6A"];
const SOUTH = "$GPRMC,081836,A,3751.65,S,14507.36,E,000.0,360.0,130998,011.3,E*62";
const NONE = ["$GPGGA,,,,,,0,,,,,,,,*66", "$GPRMC,,V,,,,,,,,,,N*53"];

const bytesOf = text => Uint8Array.from(text, it => it.charCodeAt(0));
const heard = (lines, receiver = newReceiver()) => receiver.take(bytesOf(lines.map(it => `${it}\r\n`).join("")));
const near = (one, other) => assert.ok(Math.abs(one - other) < 1e-9, `${one} is not ${other}`);

/** A sentence with its checksum. */
function sentence(text) {
  let sum = 0;
  for (const it of text) sum ^= it.charCodeAt(0);
  return `$${text}*${sum.toString(16).toUpperCase().padStart(2, "0")}`;
}

/** One moment of a receiver that tells all, in a second of the day. */
const moment = (second, { quality = 4, deviation = "0.010" } = {}) => [
  `GNRMC,1200${second}.00,A,5033.12000,N,00900.30000,E,0.01,,290626,,,${quality === 4 ? "R" : "A"},V`,
  `GNGGA,1200${second}.00,5033.12000,N,00900.30000,E,${quality},14,0.60,133.500,M,48.000,M,1.0,0000`,
  "GNGSA,A,3,03,05,07,08,13,14,15,19,,,,,1.20,0.60,1.04,1",
  `GNGST,1200${second}.00,0.02,0.012,0.009,45.0,${deviation},${deviation},0.021`].map(sentence);

test("sentences are whole, and say so by their checksum", () => {
  for (const it of [...CLASSIC, ...UBLOX, ...TRIMBLE, SOUTH, ...NONE]) assert.notEqual(sentenceOf(it), null, it);
  const fields = ["082356.00", "1.8", "", "", "", "1.7", "1.3", "2.2"];
  assert.deepEqual(sentenceOf(UBLOX[2]), { kind: "GST", fields });
  for (const it of [CLASSIC[0].replace("8", "9"), CLASSIC[0].slice(0, -2), CLASSIC[0].slice(0, 30), "", "$*00", "$",
    CLASSIC[0].replace("*47", ""), "GPGGA,1*00", CLASSIC[0].replace("4807.038", "4807.\u0000038")]) {
    assert.equal(sentenceOf(it), null, it);
  }
  assert.equal(sentenceOf("$PUBX,40,GLL,0,0,0,0*5C").kind, "", "a maker's own");
  assert.equal(sentenceOf(`$GPGGA,1235${CLASSIC[1]}`)?.kind, "RMC", "behind a line that was cut");
  assert.equal(sentenceOf(CLASSIC[0].replace("*47", "*47 "))?.kind, "GGA");
});

test("a place with its height, and how exact it is by HDOP", () => {
  const [told, ...more] = heard([...CLASSIC, ...UBLOX.slice(0, 1)]);
  assert.deepEqual([told.time, told.words, more.length], ["123519", "GNSS, 8 satellites", 0]);
  near(told.place.latitude, 48 + 7.038 / 60);
  near(told.place.longitude, 11 + 31 / 60);
  near(told.place.height, 592.3);
  near(told.place.accuracy, 13.5);
  assert.equal(told.place.heightWithin, null);
});

test("a place by RMC alone, south of the equator, and without a word of how exact it is", () => {
  const [told] = heard([SOUTH, UBLOX[1]]);
  near(told.place.latitude, -(37 + 51.65 / 60));
  near(told.place.longitude, 145 + 7.36 / 60);
  assert.deepEqual([told.words, told.place.accuracy, told.place.height], ["GNSS", null, null]);
  const [with_] = heard([SOUTH, CLASSIC[2], UBLOX[1]]);
  near(with_.place.accuracy, 1.3 * 15);
});

test("GST tells how exact a place of the same moment is", () => {
  const receiver = newReceiver();
  const [told] = heard([...TRIMBLE, SOUTH], receiver);
  near(told.place.longitude, -(122 + 2.26957864 / 60));
  near(told.place.height, -6.776);
  near(told.place.accuracy, 2 * Math.hypot(0.023, 0.02));
  near(told.place.heightWithin, 0.062);
  assert.equal(told.words, "GNSS with corrections, 6 satellites");
  const [without] = heard([TRIMBLE[0], UBLOX[2], SOUTH]);
  near(without.place.accuracy, 1.2 * 3.75);
  const [zero] = heard([TRIMBLE[0], sentence("GPGST,172814.0,,,,,0.0,0.0,0.0"), SOUTH]);
  near(zero.place.accuracy, 1.2 * 3.75);
});

test("a moment is told once it is whole, and each once", () => {
  const receiver = newReceiver(), first = moment("01");
  assert.deepEqual(heard(first, receiver), [], "nobody knows yet what comes in a moment");
  const [told, ...more] = heard(moment("02").slice(0, 1), receiver);
  assert.deepEqual([told.time, told.words, more.length], ["120001.00", "RTK fixed, 14 satellites", 0]);
  near(told.place.accuracy, 2 * Math.hypot(0.01, 0.01));
  assert.deepEqual(heard(moment("02").slice(1, 3), receiver), []);
  assert.equal(heard(moment("02").slice(3), receiver)[0].time, "120002.00", "at its last sentence");
  const lost = heard(moment("03", { quality: 1, deviation: "2.500" }), receiver);
  assert.deepEqual(lost.map(it => [it.words, it.place.accuracy.toFixed(2)]), [["GNSS, 14 satellites", "7.07"]]);
  assert.deepEqual(heard(moment("04").slice(0, 3), receiver), [], "without its last sentence");
  assert.deepEqual(heard(moment("05"), receiver).map(it => it.time), ["120004.00", "120005.00"]);
});

test("bytes come in any pieces", () => {
  const text = ["01", "02", "03"].flatMap(it => moment(it)).join("\r\n") + "\r\n", whole = newReceiver();
  const expected = whole.take(bytesOf(text));
  assert.equal(expected.length, 3);
  for (const size of [1, 2, 7, 64, 1000]) {
    const receiver = newReceiver(), told = [];
    for (let at = 0; at < text.length; at += size) told.push(...receiver.take(bytesOf(text.slice(at, at + size))));
    assert.deepEqual(told, expected, `in pieces of ${size}`);
  }
});

test("garbage, cut lines and wrong checksums are passed over", () => {
  const binary = Uint8Array.from({ length: 4000 }, (_, at) => (at * 7919 + 13) % 256), receiver = newReceiver();
  assert.deepEqual(receiver.take(binary), []);
  assert.equal(receiver.good, 0);
  assert.ok(receiver.rest.length <= 512, "what waits for an end of its line");
  assert.deepEqual(heard([...moment("01")], receiver), []);
  const [told] = heard(moment("02").map((it, at) => at === 1 ? it.replace("5033", "5034") : it), receiver);
  assert.equal(told.time, "120001.00");
  const [next] = heard(moment("03"), receiver);
  assert.deepEqual([next.time, next.words, next.place.height], ["120002.00", "RTK fixed", null], "by RMC alone");
  near(next.place.latitude, 50 + 33.12 / 60);
  assert.deepEqual(heard(["$GNGGA,120003.00,5033.1", "\u00b5b\u0001\u0007", moment("04")[0]], newReceiver()), []);
});

test("what is no place is none, in words", () => {
  for (const it of NONE) {
    const [told] = heard([it]);
    assert.deepEqual([told.place, told.words], [null, "no place"], it);
  }
  const of = (quality, status = "A") => heard([
    sentence(`GPRMC,120001,${status},5033.12,N,00900.30,E,,,290626,,,A`),
    sentence(`GPGGA,120001,5033.12,N,00900.30,E,${quality},1,0.60,133.5,M,48,M,,`), SOUTH])[0];
  for (const [quality, words] of [[0, "no place"], [6, "reckoned on without satellites"], [7, "set by hand"],
    [8, "simulated"], [9, "no place"], ["", "no place"]]) {
    assert.deepEqual([of(quality).place, of(quality).words], [null, `${words}, 1 satellite`], quality);
  }
  assert.deepEqual([of(4, "V").place, of(4, "V").words], [null, "no place, 1 satellite"], "where RMC warns");
  assert.equal(of(5).words, "RTK float, 1 satellite");
  for (const place of ["9033.12,N,00900.30,E", "5060.00,N,00900.30,E", "5033.12,X,00900.30,E", "5033.12,N,18100.30,E",
    "5033.12,N,,E", ",,,", "-5033.12,N,00900.30,E", "50331,N,9,E"]) {
    assert.equal(heard([sentence(`GPGGA,120001,${place},1,08,0.9,5,M,4,M,,`), SOUTH])[0].place, null, place);
  }
});

test("a height that isn't measured, or whose geoid isn't told, is none", () => {
  const of = (height, mode) => heard([sentence(`GPGGA,120001,5033.12,N,00900.30,E,1,08,0.9,${height},,`),
    sentence(`GPGSA,A,${mode},04,05,,09,12,,,24,,,,,2.5,1.3,2.1`), SOUTH])[0].place.height;
  assert.equal(of("133.5,M,48.0,M", 3), 181.5);
  assert.equal(of("133.5,M,48.0,M", 2), null, "a fix of two dimensions");
  assert.equal(of("133.5,M,,M", 3), null);
  assert.equal(of(",M,48.0,M", 3), null);
  assert.equal(of("-0.3,M,0.1,M", 3), -0.2);
});
