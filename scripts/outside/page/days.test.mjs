// Random days of the outbox: forms of a crew, others that write, answers that are cut, and strangers at the port. What
// was told as standing stands, what was saved is somewhere in sight, and nothing of anybody is overwritten unsaid. On
// every second day the package keeps what rows were: then no version goes that isn't kept before.

import assert from "node:assert/strict";
import { test } from "node:test";

import { isSameRow, partsOf } from "../../../tools/page/changes.mjs";
import { rowBefore } from "../../../tools/page/past.mjs";
import { actsOfForm, photosIn, removalOf } from "../../../tools/page/records.mjs";
import { isBehind, isOpen, nextOf, rowIn, step, wayOf, withMine, withTheirs } from "../../../tools/page/steps.mjs";
import { Desk } from "./desk.mjs";

const DAYS = Number(process.env.DAYS ?? 2000), FIRST = Number(process.env.SEED ?? 1);
const KEY = "key", STEPS = 40, ROWS = 4;

/** Numbers by chance that a seed makes again. */
function chanceOf(seed) {
  let state = seed;
  return most => {
    state = state + 0x6d2b79f5 | 0;
    let it = Math.imul(state ^ state >>> 15, 1 | state);
    it = it + Math.imul(it ^ it >>> 7, 61 | it) ^ it;
    return ((it ^ it >>> 14) >>> 0) % most;
  };
}

/** A day: a package, a browser's outbox, and what others wrote that nobody of the crew has seen. */
class Day {
  constructor(seed) {
    this.chance = chanceOf(seed);
    this.mapping = seed % 2 ? null : "h";
    this.removed = new Map();  // rows as they were when the crew was told that they are removed, by number
    this.desk = new Desk();
    this.acts = [];
    this.numbers = 100;
    this.said = [];
    for (let id = 1; id <= ROWS; id++) this.desk.rows.set(id, this.row(id));
    this.photos = new Set();   // "row photo" of photos that the crew was told to stand
    this.saved = new Set();    // each act that was saved, by its number of saving
    this.stood = new Set();    // those that the crew was told to stand
    this.decided = new Set();  // those of which somebody said what becomes of them
  }

  fresh() { return this.numbers++; }

  pick(list) { return list[this.chance(list.length)]; }

  row(id) {
    return { id, title: `T${this.fresh()}`, note: `@1:${this.fresh()}/2 N${this.fresh()}`, amount: this.fresh() };
  }

  /** A row with some parts changed. */
  changed(row) {
    const parts = partsOf(row, 1), kinds = 1 + this.chance(15);
    const place = kinds & 1 ? `@1:${this.fresh()}/2` : parts.place, note = kinds & 2 ? `N${this.fresh()}` : parts.note;
    return { id: row.id, title: kinds & 4 ? `T${this.fresh()}` : row.title, note: `${place} ${note}`.trim(),
      amount: kinds & 8 ? this.fresh() : row.amount };
  }

  /** The rows as the page lists them: what waits over what stands. */
  shown() {
    const rows = new Map(this.desk.rows);
    for (const act of this.acts) {
      if (act.row && !act.told) rows.set(act.row.id, act.row);
      else if (act.dropped && !act.refused && !act.apart) rows.delete(act.dropped);
    }
    return [...rows.values()];
  }

  keep(act, next) {
    const at = this.acts.findIndex(it => it.number === act.number);
    if (at < 0 || this.acts[at].saved !== act.saved) return;
    this.acts.splice(at, 1);
    for (const it of next) this.save(it);
  }

  save(act) {
    const it = { at: KEY, ...act, number: act.number ?? this.fresh(), saved: act.saved ?? this.fresh() };
    this.acts.push(it);
    this.saved.add(it.saved);
    this.acts.sort((one, other) => one.number - other.number);
  }

  saveAll(acts) { for (const it of acts) this.save(it); }

  /** The crew saves a form of a row, a new one, or a removal; what it saw may be of before. */
  saves() {
    const row = this.pick([...this.seen ?? [], ...this.shown()].filter(it => it)), kind = this.chance(6);
    const relation = { related: "photos", mapping: "m" }, photos = kind % 2 ? [{ id: this.fresh() }] : [];
    const form = { table: "spots", isSame: false, photos, relation };
    if (!row || kind === 0) this.saveAll(actsOfForm({ ...form, row: this.row(this.fresh() + 1000), saw: null }));
    else if (kind === 1) this.save(removalOf("spots", row));
    else this.saveAll(actsOfForm({ ...form, row: this.changed(row), saw: row }));
  }

  /** Another writes, or removes, or makes a row; what the crew has on its screen stays as it was. */
  others() {
    this.seen = this.chance(3) ? this.shown() : this.seen;
    const row = this.pick([...this.desk.rows.values()]), kind = this.chance(7);
    if (!row) return;
    if (kind > 4) return void this.desk.held[kind === 5 ? "add" : "delete"](row.id);
    if (kind === 0 && !this.desk.isBase(row.id) && !this.desk.held.has(row.id)) this.desk.rows.delete(row.id);
    else if (kind === 1) this.desk.rows.set(row.id, this.row(row.id));
    else this.desk.rows.set(row.id, this.changed(row));
  }

  /** Somebody decides what becomes of an act that needs it. */
  decides() {
    const act = this.pick(this.acts.filter(it => it.apart || it.refused));
    if (!act) return;
    this.decided.add(act.saved);
    const again = { ...act, refused: undefined, records: act.dropped ? [] : act.records };
    const next = act.told ? []
      : this.pick(act.apart ? [[withMine(act, 1)], withTheirs(act, 1)] : [[again], []]);
    if (act.apart?.theirs && act.row && act.saw) this.expectSettled(act, next);
    this.keep(act, next.map(it => ({ ...it, saved: this.fresh() })));
  }

  /** Of what one side alone changed nothing goes with a decision on what both changed. */
  expectSettled({ row, saw, apart: { theirs, parts } }, [next]) {
    const [mine, before, there, now] = [row, saw, theirs, next?.row ?? theirs].map(it => partsOf(it, 1));
    for (const part of Object.keys(now).filter(it => !parts.includes(it))) {
      assert.equal(now[part], mine[part] === before[part] ? there[part] : mine[part], `${part} goes with a decision`);
    }
  }

  /** Sends what is next, with what may happen on the way; ends where the browser does. */
  sends() {
    const act = nextOf(this.acts, KEY);
    if (!act) return false;
    let way = wayOf(act, 1, this.mapping);
    this.isOther = this.chance(16) === 0;  // the address has another key, or none
    for (let asks = way.asks; asks; asks = way.asks) {
      if (this.chance(12) === 0) return true;  // the browser ends
      way = step(way, this.answers(way));
      for (const it of way.effects) {
        if (this.chance(20) === 0) return true;
        this.does(it);
      }
    }
    return true;
  }

  does(effect) {
    if (effect.does === "keep") this.keep(effect.act, effect.next);
    if (effect.does === "stands") this.expectStands(effect.act);
  }

  answers(way) {
    const chance = this.chance(16), id = rowIn(way.act);
    if (chance === 0) return { is: "none", why: "no answer", isSilent: true };
    const row = this.isOther ? undefined : this.desk.rows.get(id) ?? null;
    if (way.asks === "row") return { is: "row", row, fresh: this.fresh() + 10000 };
    if (way.asks === "related") return { is: "related", related: this.isOther ? null : this.desk.relatedOf(id) };
    return { is: "answer", answer: this.runs(way, chance) };
  }

  runs(way, chance) {
    const { records } = way.sent, text = of => ({ status: 200, type: "text/plain", leads: false, text: of });
    if (this.isOther) return { status: 404, type: null, leads: false, text: "" };
    if (chance === 1) return text("<p>hello</p>\n".repeat(records.length));
    if (chance === 2) return { status: 302, type: null, leads: true, text: "" };
    this.expectSaid(way);
    this.expectKept(way);
    const whole = this.desk.answer(records, chance === 3 ? this.chance(records.length + 1) : records.length);
    return text(chance === 4 ? whole.slice(0, this.chance(whole.length + 1)) : whole);
  }

  /** What is about to be written over, or removed, of a row was seen by who wrote the act, or stays. */
  expectSaid({ act, sent }) {
    const there = this.desk.rows.get(rowIn(act)), now = sent.row;
    if (!there || !now && !act.dropped) return;
    if (act.dropped) return void assert.deepEqual(there, act.saw, "a removal of what wasn't seen");
    const [before, seen, after] = [there, act.saw ?? null, now].map(it => it && partsOf(it, 1));
    for (const part of Object.keys(before)) {
      const isSeen = seen && before[part] === seen[part], why = JSON.stringify({ act, there, now });
      assert.ok(isSeen || after[part] === before[part], `${part} of another goes unsaid: ${why}`);
    }
  }

  /** What a row is before another takes its place is kept by an earlier record, and once for each list. */
  expectKept({ act, sent: { records, row } }) {
    const there = this.desk.rows.get(rowIn(act)), past = records.filter(([word, table]) => word === "row"
      && table === "history");
    if (!this.mapping) return void assert.equal(past.length, 0, "a history that nobody has laid out");
    if (!row || !there || isSameRow(row, there)) return;
    const [[, , id, title, note, amount]] = past, told = rowBefore({ id, title, note, amount }, act.table, row.id);
    assert.deepEqual([past.length, told], [1, there], "what a row was before another takes its place");
    assert.ok(records[1].join() === ["map", "h", row.id, id].join() && records[2][1] === "spots", "the order");
    const kept = this.desk.past.get(id);
    assert.ok(!kept || kept.title === title && kept.note === note, "what is kept is never written over");
  }

  /** Of each removal that the crew was told of the package tells what the row was, where it keeps that. */
  expectRemoved() {
    for (const { id, title } of this.mapping ? this.removed.values() : []) {
      const told = [...this.desk.past.values()].filter(it => it.title === title && it.note.endsWith(`of=spots/${id}`));
      assert.ok(told.length > 0, `what row ${id} was when it was removed`);
    }
  }

  /** What the crew is told to stand stands in the package. */
  expectStands(act) {
    this.stood.add(act.saved);
    if (act.row) assert.deepEqual(this.desk.rows.get(act.row.id), act.row, "the row");
    if (act.dropped) assert.ok(!this.desk.rows.has(act.dropped), "the row that was removed");
    if (act.dropped && act.then?.some(([word]) => word === "row")) this.removed.set(act.dropped, act.saw);
    for (const it of act.dropped ? [...this.photos] : []) if (it.startsWith(`${act.dropped} `)) this.photos.delete(it);
    for (const id of photosIn(act)) {
      assert.ok(this.desk.maps.has(`${act.of} ${id}`) && this.desk.photos.has(id), `photo ${id}`);
      this.photos.add(`${act.of} ${id}`);
    }
  }

  /** Photos that the crew was told to stand are with their rows, as long as no removal is under way, or done. */
  expectPhotos() {
    const isRemoved = row => !this.desk.rows.has(row) || this.acts.some(it => it.dropped === row && isOpen(it, KEY));
    for (const it of this.photos) {
      assert.ok(this.desk.maps.has(it) || isRemoved(Number(it.split(" ")[0])), `photo ${it} is off its row`);
    }
  }

  /** What was saved stands, or is in sight, or somebody said what becomes of it. */
  expectSight() {
    const there = new Set(this.acts.map(it => it.saved));
    const isSeen = it => there.has(it) || this.stood.has(it) || this.decided.has(it);
    for (const it of this.saved) assert.ok(isSeen(it), `${it} is out of sight`);
  }
}

test("what somebody has to decide on holds back what is behind it of its row alone", () => {
  const of = { at: KEY, table: "spots", of: 7, what: "", records: [], row: { id: 7, title: "", note: "", amount: 0 } };
  const act = (number, more) => ({ number, ...of, ...more });
  const apart = { theirs: null, parts: [] };
  assert.equal(nextOf([act(1, { apart }), act(2), act(3, { row: { id: 8 } })], KEY)?.number, 3);
  assert.equal(nextOf([act(1, { refused: "no" }), act(2, { row: undefined })], KEY)?.number, 2, "a photo of the row");
  assert.equal(nextOf([act(1, { refused: "", told: {}, row: undefined }), act(2)], KEY)?.number, 2, "it is told");
  assert.equal(nextOf([act(1, { at: "another" }), act(2)], KEY), undefined);
  const photo = { saved: 6, row: undefined }, acts = [act(1, { saved: 5 }), act(2, photo), act(3, { of: 8, saved: 7 })];
  assert.equal(nextOf(acts, KEY, new Set([5]))?.number, 3, "what failed is passed over with its row");
  assert.equal(nextOf(acts, KEY, new Set([6]))?.number, 1, "and not what is before it");
});

test("a removal that was cut, and whose row another has changed since, is put back", () => {
  const row = { id: 7, title: "A", note: "", amount: 0 }, records = [["map-drop", "m", 7, 9], ["row-drop", "spots", 7]];
  const then = [["media-drop", "photos", 9]];
  const act = { number: 1, saved: 2, at: KEY, ...removalOf("spots", row), records, then };
  const { asks, effects: [{ next: [apart, back] }] } = step(wayOf(act, 1), { is: "row", row: { ...row, title: "B" } });
  assert.deepEqual([asks, apart.records, apart.then, apart.apart.theirs.title], [null, [], undefined, "B"]);
  assert.deepEqual([back.records, back.number], [[["map", "m", 7, 9]], undefined]);
});

test(`${DAYS} random days`, () => {
  for (let seed = FIRST; seed < FIRST + DAYS; seed++) {
    const day = new Day(seed);
    try {
      for (let at = 0; at < STEPS; at++) {
        day[day.pick(["saves", "saves", "others", "sends", "sends", "decides"])]();
        day.expectSight();
      }
      for (let at = 0; day.sends(); at++) assert.ok(at < 5000, "the outbox comes to no end");
      const isHeld = it => !isOpen(it, KEY) || isBehind(it, day.acts, KEY);
      assert.ok(day.acts.every(isHeld), "what waits, waits for somebody");
      day.expectSight();
      day.expectPhotos();
      day.expectRemoved();
    } catch (error) {
      error.message = `seed ${seed}: ${error.message}`;
      throw error;
    }
  }
});
