// The outbox: what was saved waits in this browser, on its disk, until the package has it, wholly and once. It is the
// package's own, by the word of item 4, so that nothing goes to another package at the same address.
//
// An act is one list of records (records.mjs): { number, at, saved, table, of, what, records, row or dropped, saw,
// then, refused, apart, told, past }. The bytes of a photo stand by its number in a store beside. A list that was cut
// is sent again whole: a row or a photo that stands is written again, and what is refused since it stands already, or
// is gone already, is as it should be. 'then' is a list that is sent behind it, once it is done. 'at' is the key it was
// saved under, and 'saved' another number each time that it is saved. 'saw' is the row as the form showed it, null of a
// new one; 'apart' says how another has changed that meanwhile; 'told' is what is left of an act that stands joined
// with such a change. 'past' is what its row was, as it was kept before the act was sent (past.mjs).

const KEY = ROOT.split("/")[1];
const DRAW_AGAIN = 200;  // milliseconds from one count of what waits to the next, while that is sent

// The outbox's state, which this file alone writes: the IndexedDB (store); what isn't in the package yet, in the order
// of its numbers (waiting); and what is there, joined with what another changed, until somebody has seen it (joinings).
const outbox = { store: null, waiting: [], joinings: [] };
let tabs = null;       // tells other tabs what has changed
let counted = 0, counting = 0;  // when what waits was counted last, and what counts it next

const done = request => new Promise((good, bad) => {
  request.onsuccess = () => good(request.result);
  request.onerror = () => bad(request.error);
});

/** Why a browser keeps nothing, in words: an error of a full storage has a name and no message. */
const whyNotKept = error => error?.name === "QuotaExceededError" ? phrase("its storage is full")
  : error?.message || error?.name || String(error);

/** Opens the outbox of a package. */
async function openOutbox(word) {
  const request = indexedDB.open(`mmpkg outbox ${word}`, 1);
  request.onupgradeneeded = () => {
    request.result.createObjectStore("acts", { keyPath: "number", autoIncrement: true });
    for (const name of ["photos", "drafts"]) request.result.createObjectStore(name);
  };
  outbox.store = await done(request);
  await takeTab();
  tabs = new BroadcastChannel(outbox.store.name);
  tabs.onmessage = ({ data }) => heard(data);
  await readActs();
}

/** Reads what the outbox holds. */
async function readActs() {
  const all = await acts();
  Object.assign(outbox, { waiting: all.filter(it => !it.told), joinings: all.filter(it => it.told) });
}

/** An act that was done waits no more, whatever is left of it. */
function waitsNoMore(act) {
  outbox.waiting = outbox.waiting.filter(it => it.saved !== act.saved);
}

/** Tells other tabs that the outbox has changed, and which act has been done. */
const tellTabs = (act = null) => tabs.postMessage(act);

/** Whether this browser keeps work for other packages of this address. */
async function hasOther() {
  for (const { name } of await indexedDB.databases?.() ?? []) {
    if (!/^mmpkg outbox /.test(name) || name === outbox.store.name) continue;
    const other = await done(indexedDB.open(name));
    const hasActs = other.objectStoreNames.contains("acts");
    const there = hasActs ? await done(other.transaction("acts").objectStore("acts").getAll()) : [];
    other.close();
    if (there.some(it => !it.told)) return true;
  }
  return false;
}

const acts = () => done(outbox.store.transaction("acts").objectStore("acts").getAll());

/** An act as the outbox has it. */
const actOf = number => done(outbox.store.transaction("acts").objectStore("acts").get(number));

/** The bytes of a photo of the outbox. */
const photoOf = id => done(outbox.store.transaction("photos").objectStore("photos").get(id));

/** The photos that an act brings, with their bytes. */
const broughtBy = act => Promise.all(photosIn(act).map(async id => ({ id, bytes: await photoOf(id) })));

/** Another number each time that an act is saved, also where many are saved at once. */
function saving() {
  const [high, low] = crypto.getRandomValues(new Uint32Array(2));
  return high % 2 ** 20 * 2 ** 32 + low;
}

/** Changes the outbox, wholly or not at all; once the promise is kept the disk has it. */
async function keep(work) {
  const change = outbox.store.transaction(["acts", "photos", "drafts"], "readwrite", { durability: "strict" });
  let failed = null;
  const end = new Promise((good, bad) => {
    change.oncomplete = good;
    change.onabort = () => bad(failed ?? change.error);
  });
  try {
    work(...["acts", "photos", "drafts"].map(it => change.objectStore(it)));
  } catch (error) {
    failed = error;
    change.abort();
  }
  await end;
  await recount();
  tellTabs();
}

/**
 * Puts acts and the bytes of their photos into the outbox, all or none, and sends them. One that has a number takes the
 * place of that. Where they close the form, what was typed in it goes by the same change: it isn't there again where
 * the browser ends behind it.
 */
async function post(list, photos = [], gone = [], closes = false) {
  await keep((acts, bytes, drafts) => {
    if (closes) drafts.delete(ownKeys());
    for (const act of list) acts.put({ ...act, at: KEY, saved: saving() });
    for (const id of gone) bytes.delete(id);
    for (const photo of photos.filter(it => !it.isKept || gone.includes(it.id))) bytes.put(photo.bytes, photo.id);
  });
  send();
}

/**
 * Puts what comes of an act in its place; where nothing does it goes, and its photos do that nothing brings. What was
 * saved meanwhile under its number stays.
 */
const become = (act, ...next) => keep((acts, bytes) => {
  const there = acts.get(act.number), brought = new Set(next.flatMap(photosIn));
  there.onsuccess = () => {
    if (!there.result || there.result.saved !== act.saved) return;
    if (!next.some(it => it.number === act.number)) acts.delete(act.number);
    for (const it of next) acts.put({ saved: saving(), ...it });
    for (const id of photosIn(act)) if (!brought.has(id)) bytes.delete(id);
  };
});

/** Sends what somebody wants of an act in its place, where no other tab has done something with it meanwhile. */
const goOnWith = (act, next) => become(act, { ...next, at: KEY, saved: saving() }).then(send);

/** Removes the bytes of photos that no act and no draft has any more. */
async function sweep() {
  const change = outbox.store.transaction(["acts", "photos", "drafts"], "readwrite");
  const [kept, typed, photos] = ["acts", "drafts", "photos"].map(it => change.objectStore(it));
  const [all, drafted, ids] = await Promise.all([kept.getAll(), typed.getAll(), photos.getAllKeys()].map(done));
  const used = new Set([...all.flatMap(photosIn), ...drafted.flatMap(it => it.ids ?? [])]);
  for (const id of ids.filter(it => !used.has(it))) photos.delete(id);
}

/**
 * What other tabs tell: that the outbox has changed, and which act has been done. What they may leave behind is sent
 * from here.
 */
async function heard(act) {
  if (act) stands(act);
  await recount();
  if (nextOf(outbox.waiting, KEY)) send();
}

/** Counts what waits anew; while much is sent not after each act. */
async function recount() {
  clearTimeout(counting);
  const wait = isSending() ? counted + DRAW_AGAIN - performance.now() : 0;
  if (wait > 0) counting = setTimeout(recount, wait);
  else await count();
}

/** Counts what waits, and shows it. */
async function count() {
  counted = performance.now();
  await readLeft();
  await readActs();  // last: of two counts that overlap the one that was read last stays
  showWaiting();
  showFound();
  counted = performance.now();  // however long that took, others have their turn before the next
}

/** The body that sends records. */
async function bodyOf(records) {
  const lines = records.map(async fields => {
    const line = lineOf(fields);
    return fields[0] === "media" ? [line, ",", hexOf(new Uint8Array(await photoOf(fields[2]))), "\n"] : [line, "\n"];
  });
  return new Blob((await Promise.all(lines)).flat());
}

/**
 * Has the browser keep what waits as a file of records, which 'mmpkg run' puts into another copy where this package is
 * lost.
 */
async function keepAsFile() {
  const bodies = [];  // of one act behind another, so that the photos of one alone are in memory
  for (const act of outbox.waiting) bodies.push(await bodyOf(recordsToLeave(act)));
  const href = URL.createObjectURL(new Blob(bodies)), day = new Date().toISOString().slice(0, 10);
  Object.assign(document.createElement("a"), { href, download: `not-in-the-package-${day}.csv` }).click();
  setTimeout(() => URL.revokeObjectURL(href), PATIENCE);
}
