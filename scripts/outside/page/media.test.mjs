// What a file of a row is, by its bytes.

import assert from "node:assert/strict";
import { test } from "node:test";

import {
  isPaper, isSound, nounOf, typeInForm, typeOfFile, whyTooLong, wordsOfSize,
} from "../../../tools/page/media.mjs";
import { actsOfForm } from "../../../tools/page/records.mjs";

const bytesOf = text => Uint8Array.from([...text].map(it => it.charCodeAt(0))).buffer;
// A page of Ogg with one packet.
const ogg = packet => `OggS\0\x02${"\0".repeat(20)}\x01\x13${packet}`;

// An element of a WebM, with a size of two bytes, and one that goes on to the end; a track with a number of its own, a
// kind (1 pictures, 2 sound) and a codec; a file with tracks and what it packs, as Chromium's recorder writes it.
const element = (name, body) => `${name}${String.fromCharCode(0x40 + (body.length >> 8), body.length & 255)}${body}`;
const open = (name, body) => `${name}\x01${"\xff".repeat(7)}${body}`;
const track = ([kind, codec], number = "\x01") => element("\xae", element("\xd7", "\x01")
  + element("\x73\xc5", number) + element("\x83", kind) + element("\x86", codec));
const fileOf = (tracks, packed, type) => element("\x1a\x45\xdf\xa3", element("\x42\x86", "\x01")
  + element("\x42\x82", type)) + open("\x18\x53\x80\x67", element("\x15\x49\xa9\x66", element("\x4d\x80", "Chrome"))
  + tracks + open("\x1f\x43\xb6\x75", element("\xa3", packed)));
const webm = (tracks, packed = "\x81", type = "webm") =>
  fileOf(element("\x16\x54\xae\x6b", tracks.map(it => track(it)).join("")), packed, type);
const OPUS = ["\x02", "A_OPUS"], VP8 = ["\x01", "V_VP8"];
const FILES = [
  ["\xff\xd8\xff\xe0", "image/jpeg"],
  ["%PDF-1.7\n%\xe2\xe3", "application/pdf"],
  ["RIFF\x24\x08\0\0WAVEfmt ", "audio/wav"],
  ["ID3\x04\0\0\0\0\0\x23TSSE", "audio/mpeg"],
  ["\xff\xfb\x90\x64\0", "audio/mpeg"],
  ["\0\0\0\x20ftypM4A \0\0", "audio/mp4"],
  [ogg("OpusHead\x01"), "audio/ogg"],
  [ogg("\x01vorbis\0"), "audio/ogg"],
  [webm([OPUS]), "audio/webm"],
  [webm([["\x02", "A_VORBIS\0"], OPUS]), "audio/webm"],
  [webm([OPUS], "\x81\0\0\x80 V_ is what packed sound may have"), "audio/webm"],
  [fileOf(element("\x16\x54\xae\x6b", track(OPUS, "V_VP8..\x01")), "", "webm"), "audio/webm"],
];
const OTHERS = ["", "\xff", "\xff\xfb", "\xff\xff\xff\xff", "\xff\xe9\x90\0", "\xff\xf1\x50\x80", "%PDF", "<html>%PDF-",
  "RIFF\0\0\0\0AVI ", "RIFF\0\0\0\0WEBP", "\x89PNG\r\n\x1a\n", "PK\x03\x04", "\0\0\0\x20ftypisom",
  "\0\0\0\x20ftypheic", ogg("\x80theora"), webm([]), webm([VP8]), webm([VP8, OPUS]),
  webm([OPUS, VP8]), webm([["\x01", "A_OPUS"]]), webm([["\x02", "A_AAC"]]), webm([["\x11", "S_TEXT/UTF8"]]),
  webm([OPUS], "\x81", "matroska"), fileOf("", "A_OPUS", "webm"), webm([OPUS]).slice(0, 60),
  "\x1a\x45\xdf\xa3\x84webm"];

test("a file is what its bytes say", () => {
  for (const [text, type] of FILES) assert.equal(typeOfFile(bytesOf(text)), type, JSON.stringify(text));
  for (const text of OTHERS) assert.equal(typeOfFile(bytesOf(text)), null, JSON.stringify(text));
  for (const none of [null, undefined]) assert.equal(typeOfFile(none), null);
});

test("a form keeps as sound what it has taken as sound", () => {
  for (const [text, type] of FILES) assert.equal(typeInForm(bytesOf(text)), type, JSON.stringify(text));
  const subtitled = bytesOf(webm([OPUS, ["\x11", "S_TEXT/UTF8"]]));
  assert.deepEqual([typeOfFile(subtitled), typeInForm(subtitled)], [null, "audio/webm"]);
  assert.deepEqual(["\x89PNG\r\n\x1a\n", "", webm([OPUS], "", "matroska")].map(it => typeInForm(bytesOf(it))),
    [null, null, null]);
});

test("which files are no pictures", () => {
  assert.deepEqual(FILES.map(([, type]) => isPaper(type)), FILES.map(([, type]) => type !== "image/jpeg"));
  assert.deepEqual([isSound("audio/x-wav"), isSound("application/pdf"), isSound(null), isSound("")],
    [true, false, false, false]);
  assert.deepEqual(["application/pdf", "audio/ogg", "image/jpeg", undefined].map(nounOf),
    ["PDF", "sound", "photo", "photo"]);
});

test("sizes in words, and what is too long", () => {
  assert.deepEqual([1, 1024, 1025, 1048575, 1048576, 4194304].map(wordsOfSize),
    ["1 KiB", "1 KiB", "2 KiB", "1024 KiB", "1.0 MiB", "4.0 MiB"]);
  assert.equal(whyTooLong("plan.pdf", 4194304, 4194304), "");
  assert.equal(whyTooLong("plan.pdf", 4194305, 4194304),
    "plan.pdf has 4.1 MiB: the package takes files of at most 4.0 MiB.");
});

test("records of a row's files have their types", () => {
  const row = { id: 5, title: "Oak", note: "", amount: 0 }, relation = { related: "photos", mapping: "m" };
  const photos = [{ id: 7, type: "application/pdf" }, { id: 8, type: "audio/ogg" }, { id: 9 }];
  const acts = actsOfForm({ table: "spots", row, saw: row, isSame: true, photos, relation });
  assert.deepEqual(acts.map(it => [it.what, it.records[0]]), [
    ["Oak, with a PDF", ["media", "photos", 7, "application/pdf"]],
    ["Oak: one more sound", ["media", "photos", 8, "audio/ogg"]],
    ["Oak: one more photo", ["media", "photos", 9, "image/jpeg"]]]);
});
