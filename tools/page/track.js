// A track of where the crew walks, for a row: what the device or a receiver tells is thinned (tracks.mjs), and kept on
// the disk as it comes, so that it goes on where the page is loaded again. Ended it is a file of the row's form.
//
// Among the drafts it has the key TRACK, for the row that it is of, and the keys [TRACK, N] for its steps, hundreds
// each. One tab of a browser records at a time, by a lock.

const TRACK = "track", STEPS_EACH = 500;
const TELLS_EACH = 1000;  // milliseconds from one look at how it is about the track to the next

// While a track is recorded: its row (table, row, title), its steps, the walk that they were taken of, how long it is
// (metres), why no place comes (why), what tells how it is (looking), the promise of a screen that stays on (awake),
// what lets its lock go (letGo), and the layer that shows it (layer), on which map, with the line that goes on.
let walking = null;

const lockOfTrack = () => `${outbox.store.name} track`;

/** Has this tab alone record; answers what lets others do so, null where another tab does. */
function ownTrack(how = { signal: AbortSignal.timeout(GONE_WITHIN) }) {
  return new Promise(good => navigator.locks.request(lockOfTrack(), how, () => new Promise(letGo => good(letGo)))
    .catch(() => good(null)));
}

/** Begins to record a track of the form's row. */
async function beginTrack() {
  const now = form, letGo = walking ? null : await ownTrack();
  if (!letGo || form !== now || walking) {
    letGo?.();
    if (form) byId("told").textContent = phrase("A track is recorded already: end that first.");
    return;
  }
  const { table, row } = form, title = byId("title").value.trim() || phrase("a new row");
  drafts("strict").put({ track: { table, row: plain(row), title } }, TRACK).transaction.commit();
  goOnTracking({ table, row: plain(row), title, steps: [], letGo });
}

/** Goes on with a track that was recorded when the page was loaded again, or its tab ended. */
async function findTrack() {
  if (!await done(drafts("relaxed").get(TRACK))) return;
  const letGo = await ownTrack({}), head = await done(drafts("relaxed").get(TRACK));
  if (!head || walking) return letGo();
  const kept = await done(drafts("relaxed").getAll(IDBKeyRange.bound([TRACK, 0], [TRACK, Infinity])));
  goOnTracking({ ...head.track, steps: kept.flatMap(it => it.steps), letGo });
  sayFor("track", phrase("The track goes on: a part of it begins with the next place."));
}

/** Records from now on. */
function goOnTracking({ table, row, title, steps, letGo }) {
  const walk = { last: steps.at(-1) ?? null, heard: null }, metres = lengthOfTrack(steps);
  walking = { table, row, title, steps, walk, metres, letGo, why: "", awake: null, layer: null, map: null, line: null };
  walking.looking = setInterval(tellTrack, TELLS_EACH);
  byId("trail").hidden = false;
  offerTrack();
  keepAwakeForTrack();
  drawTrack();
  askForPlaces("track", stepOn, noStep);
  tellTrack();
}

/** Takes over where the device is. */
function stepOn(fix) {
  const { walk, step } = walked(walking.walk, fix, fix.came.clock), { steps } = walking, before = steps.at(-1);
  const isFull = steps.length >= MOST_PLACES;
  const why = isFull ? phrase("more it doesn't take: end it")
    : fix.accuracy > MOST_OFF ? phrase("only {0}", withinTold(fix.accuracy)) : "";
  Object.assign(walking, { walk, why });
  if (step && !isFull) {
    steps.push(step);
    if (!step.begins) walking.metres += metresBetween(before, step);
    keepSteps();
    addToTrack(step);
  }
  tellTrack();
}

/** Says why no place comes. */
function noStep(error) {
  walking.why = whyNoDevice(error);
  tellTrack();
}

/** Keeps the last steps. */
function keepSteps() {
  const at = Math.floor((walking.steps.length - 1) / STEPS_EACH);
  const { transaction } = drafts("relaxed").put({ steps: walking.steps.slice(at * STEPS_EACH) }, [TRACK, at]);
  transaction.commit();
  transaction.onabort = ({ target }) =>
    say("track", phrase("The track isn't kept ({0}): end it soon.", whyNotKept(target.error)));
}

/** Tells how it is about the track. */
function tellTrack() {
  const { title, steps, metres, why } = walking, age = myAge() === Infinity ? "" : ageTold(myAge());
  const count = plural(steps.length, "{0} place", "{0} places");
  const more = why || (age ? phrase("the last place is {0}", age) : steps.length ? "" : phrase("no place yet"));
  const words = [phrase("Track of {0}: {1} m", title, numberTold(metres)), count, more];
  byId("trailed").textContent = words.filter(it => it).join(", ");
}

/** Draws the track on a map that was made anew. */
function drawTrack() {
  if (!walking || !map) return;
  walking.layer?.remove();
  Object.assign(walking, { layer: L.layerGroup().addTo(map), map, line: null });
  for (const it of walking.steps) addToTrack(it);
}

/** Draws a step of the track behind those of before. */
function addToTrack(step) {
  const place = placeInSystem(rows.systems[shown?.srs_id], step);
  if (!place || walking.map !== map) return;
  const how = { interactive: false, color: MINE, weight: 4, dashArray: "1 7", lineCap: "round" };
  if (step.begins || !walking.line) walking.line = L.polyline([], how).addTo(walking.layer);
  walking.line.addLatLng([place.north, place.east]);
}

/** Keeps the screen on while a track is recorded: a browser tells a page that is hidden no place. */
function keepAwakeForTrack() {
  if (walking && !document.hidden) walking.awake = navigator.wakeLock?.request("screen").catch(() => null);
}

/** Records no more. */
function leaveTrack() {
  clearInterval(walking.looking);
  walking.awake?.then(it => it?.release());
  walking.layer?.remove();
  walking.letGo();
  walking = null;
  byId("trail").hidden = true;
  askForNone("track");
  offerTrack();
}

/** Forgets what is kept of the track. */
function forgetTrack() {
  const kept = drafts("strict");
  kept.delete(IDBKeyRange.bound([TRACK, 0], [TRACK, Infinity]));
  kept.delete(TRACK);
  return done(kept.get(TRACK));
}

/** The form of the track's row, which is opened where it isn't; null where another holds what isn't saved. */
async function formOfTrack() {
  const { table, row } = walking;
  if (form?.row.id === row.id && form.table === table) return form;
  if (isHeld()) return null;
  if (table !== rows.showing) {
    if (!changeTable(table)) return null;
    await readRows();
  }
  const there = rowsNow().find(it => it.id === row.id);
  if (byId("panel").hidden) byId("toggle").click();
  if (there) open(there); else openForm({ table, row, fresh: true });
  return form?.row.id === row.id ? form : null;
}

/** Ends the track: it is a file of its row's form, and is kept until that has it. */
async function endTrack() {
  if (!walking.steps.length) return dropTrack(phrase("No place came, and so there is no track."));
  const { steps } = walking, now = await formOfTrack();
  if (!now || walking?.steps !== steps) return;
  byId("endtrack").disabled = byId("droptrack").disabled = true;
  await bring(now, [{ name: "", file: new Blob([gpxOfTrack(steps)], { type: GPX }) }]);
  const { id } = now.photos.at(-1) ?? {}, kept = id && await photoOf(id);
  byId("endtrack").disabled = byId("droptrack").disabled = false;
  if (!kept) return;  // the form says why
  await forgetTrack();
  leaveTrack();
}

/** Throws the track away. */
async function dropTrack(why = "") {
  await forgetTrack();
  leaveTrack();
  if (why) sayFor("track", why);
}

/** Offers to record a track where places can be told, none is recorded, and the form's table takes files. */
function offerTrack() {
  byId("walk").hidden = !(navigator.geolocation || navigator.serial);
  byId("walk").disabled = walking !== null || !form || !photosOf(form.table);
}

function listenToTrack() {
  byId("walk").addEventListener("click", beginTrack);
  byId("endtrack").addEventListener("click", endTrack);
  twice(byId("droptrack"), dropTrack, () => walking.steps.length > 0);
  document.addEventListener("visibilitychange", keepAwakeForTrack);
}
