// What is typed and isn't saved. Each tab keeps its own, and what a tab left that is gone is had by those that are
// there.
//
// A draft has two keys: an even number, which is its tab's, for what is typed, and the next for its photos. A tab has a
// lock as long as it is there.

const FIELDS = ["into", "title", "note", "amount", "east", "north"];
const GONE_WITHIN = 1000;  // milliseconds in which a page is gone that is loaded again

let tab = 0;                // this tab's number
let left = [];              // the drafts of tabs that are gone, each with its owner's number
const watched = new Set();  // the numbers of tabs with a draft that are there

const drafts = durability => outbox.store.transaction("drafts", "readwrite", { durability }).objectStore("drafts");
const keysOf = owner => IDBKeyRange.bound(owner, owner + 1);
const ownKeys = () => keysOf(tab);
const leftHere = () => left;
const lockOf = owner => `${outbox.store.name} tab ${owner}`;

/** Keeps what is typed, so that it is there when the page is loaded again; "strict" has it on the disk at once. */
function keepDraft(durability = "relaxed") {
  if (!form) return;
  const { table, row, fresh, act, place, saw, system } = form;
  const values = FIELDS.map(it => byId(it).value);
  const draft = { table, row, fresh, act: act?.number, place, saw, system, values, drawing: drawingNow() };
  const { transaction } = drafts(durability).put(draft, tab);
  isKept(transaction);
  transaction.commit();  // a page that goes hears no more that it was put, and would take it back
}

/** Keeps which photos aren't saved yet, with the number of their row, and the bytes of one that has come. */
function keepPhotos(photo = null) {
  if (!form) return;
  keepDraft();
  const change = outbox.store.transaction(["photos", "drafts"], "readwrite", { durability: "strict" });
  if (photo?.bytes) change.objectStore("photos").put(photo.bytes, photo.id);
  // An older page in another tab looks for 'photos'.
  change.objectStore("drafts").put({ of: form.row.id, photos: [], ids: form.photos.map(it => it.id) }, tab + 1);
  change.oncomplete = () => { if (photo) photo.isKept = true; };
  isKept(change);
  change.commit();
}

/** Says in the form where the browser doesn't keep what is typed or taken in it. */
function isKept(transaction) {
  const now = form;
  transaction.onabort = () => {
    const why = whyNotKept(transaction.error);
    if (form !== now || now.isUnsaved) return;  // Save has said more
    byId("told").textContent = phrase("What is in this form isn't kept ({0}): save it soon.", why);
  };
}

/** Takes a number for this tab, and its lock. */
function takeTab() {
  tab = 2 * Math.floor(freshId() / 2);
  return new Promise(good => navigator.locks.request(lockOf(tab), () => { good(); return new Promise(() => {}); }));
}

/** Opens the form that this tab had before it was loaded again, or else the last that a tab has left. */
async function startDrafts() {
  const before = Number(sessionStorage.tab ?? 0);
  sessionStorage.tab = tab;
  await (form ? lookForLeft() : openDraft(before));
  if (!form && left.length) await openDraft(left.at(-1).owner);
  addEventListener("focus", lookForLeft);
}

/** The drafts that tabs have left, by their tabs' numbers. */
async function leftDrafts() {
  const owners = (await done(drafts("relaxed").getAllKeys())).filter(it => it % 2 === 0 && it !== tab);
  const { held } = await navigator.locks.query(), there = new Set(held.map(it => it.name));
  for (const it of owners.filter(it => there.has(lockOf(it)))) watch(it);
  const gone = owners.filter(it => !there.has(lockOf(it)));
  const found = await Promise.all(gone.map(async owner => ({ owner, ...await done(drafts("relaxed").get(owner)) })));
  return found.filter(it => it.row && tables().some(({ table }) => table === it.table));
}

async function readLeft() {
  left = await leftDrafts();
}

/** Looks what a tab has left, once it is gone. */
function watch(owner) {
  if (watched.has(owner)) return;
  watched.add(owner);
  navigator.locks.request(lockOf(owner), { mode: "shared" }, () => watched.delete(owner)).then(lookForLeft);
}

/** Looks what tabs have left. The list stays the same where that is nothing new: else a tap under way would be lost. */
async function lookForLeft() {
  const before = String(left.map(it => it.owner));
  await readLeft();
  if (String(left.map(it => it.owner)) !== before) showWaiting();
}

/** Opens the form as it was typed in a tab, with its photos, once that tab is gone; it is this tab's then. */
async function openDraft(owner) {
  const how = { signal: AbortSignal.timeout(GONE_WITHIN) };
  const opened = await navigator.locks.request(lockOf(owner), how, async () => {
    const [draft, taken] = await Promise.all([owner, owner + 1].map(it => done(drafts("relaxed").get(it))));
    const act = outbox.waiting.find(it => (it.refused || it.apart) && it.number === draft?.act);
    const photos = draft && taken?.of === draft.row.id ? await photosOfDraft(taken) : await broughtBy(act);
    if (!draft || form || !tables().some(it => it.table === draft.table)) return false;
    const moved = drafts("strict");
    moved.delete(keysOf(owner));
    moved.put(draft, tab);
    if (taken) moved.put(taken, tab + 1);
    fillForm(draft, act, photos);
    return true;
  }).catch(error => { if (error.name !== "TimeoutError") throw error; });
  await (opened ? tellLeft() : lookForLeft());
}

/** The photos of a draft; one of an older page has them itself. Those of an act may go with it: all are kept anew. */
async function photosOfDraft({ ids, photos }) {
  if (!ids) return photos;
  const found = await Promise.all(ids.map(async id => ({ id, bytes: await photoOf(id) })));
  return found.filter(it => it.bytes);
}

/** Fills the form with a draft, the act that it changes, if any, and its photos. */
function fillForm({ table, row, fresh, place, values, saw, system, drawing }, act, photos) {
  openForm({ table, row, fresh, act, saw, system });
  for (const [at, it] of FIELDS.entries()) byId(it).value = values[at];
  setOf(form, { table: byId("into").value, place, photos });
  showFields();
  if (placeOfForm() !== null) tap(false);
  drawAgain(drawing);
  showPlace();
  showPhotos();
  byId("told").textContent = phrase("This wasn't saved yet.");
}

async function throwDraftAway(owner) {
  await done(drafts("strict").delete(keysOf(owner)));
  await sweep();
  await tellLeft();
}

/** Shows anew, here and in other tabs, what tabs have left. */
async function tellLeft() {
  await recount();
  tellTabs();
}

/** A draft that a tab has left, in words, and the buttons that go on with it. */
function leftItem({ owner, row, values: [, title] }) {
  const item = listItem(title || nameOf(row), phrase("typed in a tab that is closed, and not saved"));
  buttonIn(item, phrase("Open"), () => {
    if (isHeld()) return;
    closeForm();
    openDraft(owner);
  });
  twice(buttonIn(item, phrase("Throw away")), () => throwDraftAway(owner));
  return item;
}
