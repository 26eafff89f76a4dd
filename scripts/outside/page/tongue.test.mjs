// What the page says in the crew's language: each phrase of its sources has one in each language, and no words are said
// beside them.

import assert from "node:assert/strict";
import { beforeEach, test } from "node:test";

import { judged, wordsOfRefusal } from "../../../tools/page/answers.mjs";
import { csvOf, gpxOf, listingOf, stateOf } from "../../../tools/page/files.mjs";
import { withinTold } from "../../../tools/page/fixes.mjs";
import { wordsOfSize } from "../../../tools/page/media.mjs";
import { newReceiver } from "../../../tools/page/nmea.mjs";
import { wordsOfMeasure, wordsOfOffset } from "../../../tools/page/plane.mjs";
import { actsOfForm, putBack, removalOf } from "../../../tools/page/records.mjs";
import { wordsOfShot } from "../../../tools/page/shots.mjs";
import { wordsOfSlips } from "../../../tools/page/slips.mjs";
import { styleOfTable } from "../../../tools/page/styles.mjs";
import { wordsOfWay } from "../../../tools/page/systems.mjs";
import { LANGUAGES, numeral, phrase, phraseOfSource, plural, speak, toSay } from "../../../tools/page/tongue.mjs";
import { bothSides, nameOfAct, wordsOf } from "../../../tools/page/words.mjs";
import { piecesOf, sources, textsOf, textsOfPage } from "./phrases.mjs";

// What looks like words in the sources and is none that a crew sees on the page, by the file: what stands in files and
// in the outbox, which is English, what a browser or the program understands, and names under which a browser keeps.
const UNSAID = {
  "answers.mjs": ["refused ", "fault "],
  "asking.js": ["Content-Type"],
  "behind.js": ["mmpkg maps ", "Content-Security-Policy"],
  "camera.js": ["mmpkg camera", "Escape"],
  "drafts.js": [" tab ", "TimeoutError"],
  "fields.js": ["input, select, button"],
  "files.mjs": ["(no title) ", " at east ", ", north ", " of system ", "is left out", "has no geometry", " of ",
    ", listed ", "Not in the package yet: ", ", whose state says why.",
    "Longitude and latitude are of WGS 84, for which ETRS89 is taken: less than a metre.", "What has no place ",
    "What has a place that the page can't tell in degrees ", "; in metres: ", '<wpt lat="',
    '<?xml version="1.0" encoding="UTF-8"?>\n<gpx version="1.1" creator="mmpkg" '],
  "form.js": ["(pointer: fine)", "Escape"],
  "lines.js": ["waits "],
  "lines.mjs": ["LineString", "Polygon", "Feature", " min"],
  "map.js": ["move zoomend"],
  "marks.js": ["bold ", "px system-ui, sans-serif"],
  "measure.js": ["Escape"],
  "media.mjs": [" KiB", " MiB"],
  "mine.js": ["mine old"],
  "outbox.js": ["QuotaExceededError", "mmpkg outbox "],
  "photos.js": ["take ", " off ", "it is too long"],
  "receiver.js": ["mmpkg receiver speed", "NotFoundError"],
  "records.mjs": [", with a ", ": one more ", "remove ", "put back what belongs to it (", " refused (?!"],
  "report.js": [" changed", "header, main", "Escape"],
  "sending.js": ["Content-Type", "TimeoutError"],
  "signing.mjs": [" at="],
  "stake.js": ["mmpkg quiet"],
  "start.js": ["mmpkg file "],
  "steps.mjs": ["it stands, joined with what another changed"],
  "tables.js": ["mmpkg tables "],
  "tongue.js": ["script, style"],
  "track.js": [" track"],
  "tracks.mjs": ['<trkpt lat="', '<?xml version="1.0" encoding="UTF-8"?>\n<gpx version="1.1" creator="mmpkg" '],
  "who.js": ["mmpkg crew name"],
  "words.mjs": [", with a"],
};
const LOOKS_LIKE_WORDS = /\p{L}{2,}[,.:]? \(?\p{L}{2,}|^\p{Lu}\p{Ll}|\p{L}{2,} $|^[,.:]? \p{L}{2,}/u;

/** The files of the languages. */
const TABLES = [...sources().get("tongue.mjs").matchAll(/^import \{ [A-Z]+ \} from "\.\/(.*)";$/gm)].map(it => it[1]);

/** By file, the texts of the sources. */
const texts = new Map([...sources()].filter(([name]) => !TABLES.includes(name))
  .map(([name, it]) => [name, textsOf(it)]));

/** All phrases that the page says. */
const said = new Set([...textsOfPage(), ...[...texts.values()].flat().filter(it => it.isPhrase).map(it => it.text)]);

/** The places of a phrase, such as {0}, in their order. */
const placesIn = text => [...text.matchAll(/\{\d\}/g)].map(([it]) => it).sort();

beforeEach(() => { speak(["en"]); });

test("a source is read in pieces", () => {
  const texts = source => piecesOf(source).map(it => it.text);
  assert.deepEqual(texts("a(/\"[/]'/g, b / c); // \"d\"\n`e${f({ g: `h` })}i` /* 'j' */ + 'k\\'l'"),
    ["a", "(", "/\"[/]'/g", ",", "b", "/", "c", ")", ";", "`e${", "f", "(", "{", "g", ":", "`h`", "}", ")", "}i`", "+",
      "'k\\'l'"]);
});

test("phrases are found in a source", () => {
  const found = source => textsOf(source).filter(it => it.isPhrase).map(it => it.text);
  assert.deepEqual(found('phrase("one {0}", "value"); say("two")'), ["one {0}"]);
  assert.deepEqual(found('phrase(a === "b" ? "one" : "t" +\n  "wo", f("c", ["d"]))'), ["one", "two"]);
  assert.deepEqual(found('plural(f("a", 1), "{0} one", "{0} many", "b")'), ["{0} one", "{0} many"]);
  assert.deepEqual(found('toSay({ "a-b": "one", c: ["two"], d: e("three") }); { f: "g" }'), ["one", "two", "three"]);
  assert.deepEqual(found('`a ${phrase("one")} b` + `${toSay("two")}`'), ["one", "two"]);
});

for (const [language, { phrases }] of Object.entries(LANGUAGES).filter(([it]) => it !== "en")) {
  test(`each phrase has one of the language ${language} with the same places, and nothing else has`, () => {
    assert.ok(said.size > 300);
    assert.deepEqual([...said].filter(it => !Object.hasOwn(phrases, it)), [], "phrases without one");
    assert.deepEqual(Object.keys(phrases).filter(it => !said.has(it)), [], "what nothing says");
    const isOther = ([english, own]) => String(placesIn(own)) !== String(placesIn(english));
    assert.deepEqual(Object.entries(phrases).filter(isOther), [], "other places");
    assert.deepEqual(Object.values(phrases).filter(it => it.trim() !== it || !it), [], "empty ones");
  });
}

test("no words are said but as phrases", () => {
  const unsaid = ([name, list]) => [name, [...new Set(list.filter(it => !it.isPhrase).map(it => it.text)
    .filter(it => LOOKS_LIKE_WORDS.test(it)))]];
  const found = [...texts].map(unsaid).filter(([, list]) => list.length);
  assert.deepEqual(Object.fromEntries(found), UNSAID);
});

test("the first language that is known is spoken, else English", () => {
  assert.equal(speak(["fr-FR", "de-AT", "en"]), "de");
  assert.equal(phrase("Save"), "Speichern");
  assert.equal(speak(["en-GB", "de"]), "en");
  assert.equal(phrase("Save"), "Save");
  assert.equal(speak(["DE"]), "de");
  for (const it of [["fr"], [], ["constructor"]]) assert.equal(speak(it), "en");
});

test("a phrase has values in its places", () => {
  assert.equal(phrase("{0} to send", 3), "3 to send");
  assert.equal(plural(1, "{0} row", "{0} rows"), "1 row");
  assert.equal(plural(0, "{0} row", "{0} rows"), "0 rows");
  assert.equal(plural(1, "{0} row is in {1}.", "{0} rows are in {1}.", 1, "a {0}"), "1 row is in a {0}.");
  speak(["de"]);
  assert.equal(phrase("{0} to send", 3), "3 zu senden");
  assert.equal(plural(1, "{0} row", "{0} rows"), "1 Eintrag");
  assert.equal(plural(2, "{0} row", "{0} rows"), "2 Einträge");
  assert.equal(plural(12, "{0} of {1} row", "{0} of {1} rows", 3, 12), "3 von 12 Einträgen");
  for (const it of ["unknown {0}", "constructor", "$&"]) assert.equal(phrase(it), it);
  assert.equal(phrase("Row {0}", "$& {0}"), "Eintrag $& {0}");
  assert.deepEqual(toSay({ one: "Save" }), { one: "Save" });
});

test("numbers are spelled as the language spells them", () => {
  assert.equal(numeral("1,234,567.89"), "1,234,567.89");
  speak(["de"]);
  assert.equal(numeral("1,234,567.89"), "1\u202f234\u202f567,89");
  assert.equal(withinTold(0.034), "auf 0,04 m genau");
  assert.equal(withinTold(4.2), "auf 5 m genau");
  assert.equal(wordsOfSize(1572864), "1,5 MiB");
  assert.equal(wordsOfWay(3000, 0), "3\u202f000 m, 90° (O)");
  assert.equal(wordsOfMeasure([[0, 0], [3, 0], [3, 4]]), "Strecke 7,00 m (zuletzt 4,00 m), Fläche 6,00 m²");
  assert.equal(wordsOfOffset(-1.5, 2, { up: -0.5, within: 0.1 }),
    "1,50 m West, 2,00 m Nord, 0,50 m hinunter (auf 1 m genau)");
});

test("a text of the page's source keeps the white space around it", () => {
  assert.equal(phraseOfSource("\n  Save "), "\n  Save ");
  speak(["de"]);
  assert.equal(phraseOfSource("\n  Save "), "\n  Speichern ");
  assert.equal(phraseOfSource("Nothing waits: all that was\n    saved stands in the package."),
    "Nichts wartet: Alles, was gespeichert wurde, steht im Paket.");
  assert.equal(phraseOfSource(" \n 500307 5601886"), " \n 500307 5601886");
});

test("what an act does is kept in English and said in the crew's language", () => {
  const row = { id: 7, title: "Oak, with a photo", note: "", amount: 0 };
  const relation = { related: "photos", mapping: "tree_photos" };
  const photos = [{ id: 1 }, { id: 2, type: "application/pdf" }, { id: 3, type: "audio/ogg" },
    { id: 4, type: "application/geo+json" }, { id: 5, type: "application/gpx+xml" }];
  const made = actsOfForm({ table: "trees", row, saw: null, isSame: false, photos, relation });
  const [bare] = actsOfForm({ table: "trees", row, saw: null, isSame: false, photos: [], relation });
  const removal = removalOf("trees", row), [back] = putBack(removal, [["map-drop", "tree_photos", 7, 1]]);
  const off = { table: "trees", what: "take track 5 off Oak", records: [["map-drop", "tree_photos", 7, 5]] };
  const behind = { ...removal, dropped: undefined, records: [["media-drop", "photos", 1]] };
  const all = [...made, bare, removal, back, off, behind], english = all.map(it => it.what);
  assert.deepEqual(all.map(nameOfAct), english);
  speak(["de"]);
  assert.deepEqual(actsOfForm({ table: "trees", row, saw: null, isSame: false, photos, relation }), made);
  assert.deepEqual(all.map(nameOfAct), ["Oak, with a photo, mit einem Foto", "Oak, with a photo: noch ein PDF",
    "Oak, with a photo: noch eine Tonaufnahme", "Oak, with a photo: noch eine Form",
    "Oak, with a photo: noch ein Track", "Oak, with a photo", "Oak, with a photo entfernen",
    "zurückstellen, was dazugehört (Oak, with a photo entfernen)", "Track 5 von Oak lösen",
    "Oak, with a photo entfernen"]);
});

test("why an act waits is kept in English and said in the crew's language", () => {
  const refuse = (record, line) => judged([record], { status: 200, type: "text/plain", leads: false, text: line });
  const { refused } = refuse(["row", "trees", 1], "1 refused 25\n");
  speak(["de"]);
  assert.equal(refuse(["row", "trees", 1], "1 refused 25\n").refused, refused);
  assert.equal(wordsOfRefusal(refused), "der Eintrag: diese Tabelle gibt es nicht (25)");
  assert.equal(wordsOfRefusal("it is too large for the package"), "es ist zu groß für das Paket");
  assert.equal(refuse(["row", "trees", 1], "1 fault 91\n").again, "die Datei war nicht lesbar oder beschreibbar");
  assert.equal(refuse(["row", "trees", 1], "1 fault 99\n").again, "das Programm meldet den Fehler 99");
  const row = { id: 7, title: "Oak", note: "", amount: 0 }, base = { table: "trees", what: "Oak", records: [], row };
  const apart = { theirs: { ...row, title: "Elm", note: "tall" }, parts: ["title", "note"] };
  assert.equal(wordsOf({ ...base, at: "k", refused }, [], "k"),
    "abgelehnt: der Eintrag: diese Tabelle gibt es nicht (25)");
  assert.equal(wordsOf({ ...base, at: "k", apart, saw: row }, [], "k"),
    "inzwischen geändert, hier und anderswo: Titel und Notiz");
  assert.deepEqual(bothSides(row, apart.theirs, apart.parts, null).map(it => it.part), ["Titel", "Notiz"]);
});

test("files are English", () => {
  const of = { table: "trees", identifier: "Trees", when: "2026-06-15T12:00:00Z" };
  const list = [{ id: 1, title: "", note: "tall", amount: 2, waits: "changed" }];
  const files = () => [csvOf, gpxOf].map(make => make(listingOf(of, list, null, {})));
  const before = files();
  speak(["de"]);
  assert.deepEqual(files(), before);
  assert.match(before[0], /,changed meanwhile,/);
  assert.equal(phrase(stateOf(list[0])), "inzwischen geändert");
});

test("cores say German", () => {
  speak(["de"]);
  assert.equal(styleOfTable(7).name, "grün, eine Raute, hohl");
  assert.equal(wordsOfShot({ accuracy: 3.2 }, 45),
    "Das Bild gibt die Zeit an, den Ort (auf 4 m genau) und die Richtung, 45° (NO).");
  assert.equal(wordsOfSlips([{ note: "@1/x" }, { note: "@2" }], [], null),
    "2 Einträge haben ein Wort mit @, das kein Ort ist");
  const sumOf = body => [...body].reduce((before, it) => before ^ it.charCodeAt(0), 0).toString(16).padStart(2, "0");
  const lines = ["120000", "120001"].map(it => `GPGGA,${it},4948.2,N,01000.0,E,2,12,0.8,100.0,M,47.0,M,,`)
    .map(it => `$${it}*${sumOf(it)}\r\n`);
  const [told] = newReceiver().take(Uint8Array.from([...lines.join("")], it => it.charCodeAt(0)));
  assert.equal(told.words, "GNSS mit Korrekturdaten, 12 Satelliten");
});
