// The form of a row: what is typed in it, its place, and how it is kept.

const MOST_TEXT = 1000, MOST_AMOUNT = 10n ** 15n;

// What the form is about, which this file alone writes: { table, row, fresh, act, place, photos, before, from }; the
// row as its crew saw it stand, null of a new one: saw; the system of numbers that are typed: system; what its fields
// showed of the row at first: first; of photos on their way how many, the promise that they are there, and what failed
// of them: coming, taken, failed; the promise of a place from the device: asked; and where the last photo that tells it
// was taken, in degrees: shot.
let form = null;

/** Changes what a form that is open, or was, is about. */
const setOf = (now, what) => void Object.assign(now, what);

/** The number of another time that something is asked for the form: only the last answer is shown. */
const nextTurn = () => form.turn = (form.turn ?? 0) + 1;

/** Whether what is typed or taken in the form would be lost; then that is said. */
function isHeld() {
  const held = form !== null && (typed() !== form.before || form.coming > 0 || isDrawn());
  if (held) byId("told").textContent = phrase("Save or close this row first.");
  if (held) byId("edit").scrollIntoView({ block: "end" });
  return held;
}

/** Opens the form on a row that stands or waits. */
function open(row) {
  if (isHeld()) return;
  const act = outbox.waiting.find(it => (it.refused || it.apart) && it.row?.id === row.id && it.table === rows.showing);
  if (act && (row.waits === "refused" || row.waits === "changed")) change(act);
  else openForm({ table: rows.showing, row, fresh: !rows.stood.has(row.id) && !row.waits });
}

/** Opens the form on an act that was refused, or met another's change, so that it is changed and sent again. */
async function change(act) {
  if (isHeld()) return;
  const photos = await broughtBy(act);
  if (isHeld()) return;  // what was typed while the photos came
  const { row, saw } = act.apart ? withMine(act, rows.only) : act;
  openForm({ table: act.table, row, fresh: true, act, photos, saw });
}

/** The row as it is shown, without what it waits for. */
const plain = ({ id, title, note, amount }) => ({ id, title, note, amount });

function openForm({ table, row, fresh, act = null, photos = [], saw, system = shown?.srs_id ?? rows.only }) {
  const place = placeIn(row.note), from = form?.from ?? byId("panel").scrollTop, isKnown = saw !== undefined || act;
  form = { table, row, fresh, act, photos, place, from, system, saw: isKnown ? saw : fresh ? null : plain(row) };
  Object.assign(form, { coming: 0, taken: Promise.resolve(), asked: null, shot: null });
  hold(false);
  if (isDrawing()) measure(false);
  for (const it of ["remove", "leave"]) byId(it).dispatchEvent(new Event("blur"));
  byId("which").textContent = act?.refused ? phrase("Refused: {0}", wordsOfRefusal(act.refused))
    : act ? phrase("Changed meanwhile by another") : fresh ? phrase("A new row") : phrase("Row {0}", row.id);
  byId("other").hidden = !fresh || tables().length < 2;
  byId("into").value = table;
  const values = { title: row.title, note: unsigned(place ? place.rest : row.note), amount: row.amount };
  Object.assign(values, { east: place?.east ?? "", north: place?.north ?? "" });
  for (const [name, value] of Object.entries(values)) byId(name).value = value;
  tellSlip(null, "");
  form.before = typed();
  form.first = wordsTyped();
  showFields();
  byId("remove").hidden = fresh;
  byId("edit").hidden = false;
  tap(fresh && !place && !act && Boolean(map));
  lead(false);
  showPhotos();
  showPlace();
  offerPlaceOfPhoto();
  offerPast();
  bringIntoSight(place);
  byId("edit").scrollIntoView({ block: "nearest" });
  // Under fingers a field that has the focus brings up the keys, which cover the map.
  (fresh && matchMedia("(pointer: fine)").matches ? byId("title") : byId("which")).focus({ preventScroll: true });
}

const typed = () => JSON.stringify([...FIELDS.map(it => byId(it).value), ...form.photos.map(it => it.id)]);

/** The title and the note as the form's fields have them: a field has no line ends, or has them changed. */
const wordsTyped = () => ({ title: byId("title").value, note: byId("note").value.trim() });

/** Closes the form; the panel shows what it showed before. */
function closeForm() {
  const from = form?.from;
  form = null;
  if (isDrawing()) measure(false);
  drawKnown();
  drafts("relaxed").delete(ownKeys());
  sweep();
  byId("edit").hidden = true;
  if (from !== undefined) byId("panel").scrollTop = from;
  tap(false);
  lead(false);
}

/** Why the form's fields are no row: the field, and the reason in words; none where they are one. */
function whyNoRow(title, note, place, amount) {
  const long = text => new TextEncoder().encode(text).length > MOST_TEXT;
  if (place === undefined) {
    return ["east",
      phrase("East and north are two numbers of metres, with at most six decimals; or leave both empty.")];
  }
  if (place && place.system === null) {
    return ["east", phrase("A place wants a map that is shown, whose system it is in.")];
  }
  if (!/^(0|-?[1-9][0-9]{0,15})$/.test(amount) || BigInt(amount) > MOST_AMOUNT || BigInt(amount) < -MOST_AMOUNT) {
    return ["amount", phrase("The amount is a whole number of at most 10^15, without leading zeros.")];
  }
  if (long(title)) return ["title", phrase("The title has more than 1,000 bytes.")];
  if (long(note)) return ["note", phrase("The note, with the place in it, has more than 1,000 bytes.")];
  return [null, ""];
}

/** Says why the form isn't saved, at the field that it is about. */
function tellSlip(field, why) {
  for (const it of FIELDS) for (const name of ["aria-invalid", "aria-describedby"]) byId(it).removeAttribute(name);
  byId("told").textContent = why;
  if (!field) return;
  byId(field).setAttribute("aria-invalid", "true");
  byId(field).setAttribute("aria-describedby", "told");
  byId(field).focus();
}

/** The row that the form's fields tell; what wasn't changed stays letter by letter. */
function rowOfForm(place) {
  const now = wordsTyped(), amount = byId("amount").value.trim() || "0", was = placeIn(form.row.note);
  const title = now.title === form.first.title ? form.row.title : now.title;
  const isSame = now.note === form.first.note, rest = isSame ? was?.rest ?? form.row.note : now.note;
  const note = isSame && wordOf(place) === wordOf(was) ? form.row.note : noteOf(place, rest);
  return { row: { id: form.row.id, title, note, amount: Number(amount) }, slip: whyNoRow(title, note, place, amount) };
}

/** Saves the form: its acts are in the outbox, on this browser's disk, before it closes. */
async function save() {
  if (!endDrawing() || !await photosAreTaken() || !await placeIsTold()) return;
  const place = placeOfForm(), { row, slip: [field, why] } = rowOfForm(place);
  tellSlip(field, why);
  if (why || isDoubted(place) || areFieldsDoubted()) return;
  const table = form.fresh ? byId("into").value : form.table;
  if (form.photos.length && !photosOf(table)) return void (byId("told").textContent = NO_PHOTOS);
  const { act, fresh, saw, photos } = form, isSame = !act && !fresh && isSameRow(row, form.row);
  const media = photos.map(({ id, bytes }) => ({ id, type: typeInForm(bytes) ?? undefined }));
  const kept = isSame ? row : { ...row, note: signedNow(row.note) }, relation = photosOf(table);
  const made = actsOfForm({ table, row: kept, saw, isSame, photos: media, relation, number: act?.number });
  await keepAndClose(made, photos, photosIn(act));
}

/** Whether something is odd about the place, which is said once. */
function isDoubted(place) {
  const maps = rows.contents.filter(it => it.extent), { note } = wordsTyped();
  const doubt = note === form.first.note && wordOf(place) === wordOf(placeIn(form.row.note)) ? ""
    : doubtOf(place, note, maps, rows.only);
  if (!doubt || form.doubt === doubt) return false;
  byId("told").textContent = phrase("{0}. Press Save again if that is right.", doubt);
  form.doubt = doubt;
  return true;
}

/** Waits for the photos that are on their way into the form, and answers whether each of them came. */
async function photosAreTaken() {
  const now = form;
  if (!now.coming) return true;
  now.failed = "";
  byId("told").textContent = phrase("Waiting for the photo ..");
  hold(true);
  await now.taken;
  hold(false);
  byId("told").textContent = now.failed;
  return !now.failed;
}

/** Waits for the place that the device is asked for, and answers whether it told one. */
async function placeIsTold() {
  const now = form;
  if (!now.asked) return true;
  byId("told").textContent = phrase("Waiting for the device's place ..");
  hold(true);
  const told = await now.asked;
  if (form === now) hold(false);
  return told;
}

/** Keeps fingers and keys off the form, as long as it is being saved: what is typed then would be lost. */
function hold(on) {
  byId("edit").inert = byId("save").disabled = byId("remove").disabled = on;
  if (!on && form) byId("save").focus({ preventScroll: true });
}

/** Puts acts and photos into the outbox, and closes the form once they are on the disk. */
async function keepAndClose(made, photos = [], gone = []) {
  const now = form;
  hold(true);
  try {
    if (made.length) await post(made, photos, gone, true);
    if (form !== now) return;
    closeForm();
    byId("fresh").focus({ preventScroll: true });
  } catch (error) {
    now.isUnsaved = true;
    byId("told").textContent = phrase("This browser could not keep it ({0}): it isn't saved yet.", whyNotKept(error));
  } finally {
    if (!form || form === now) hold(false);
  }
}

/** Removes the form's row, with what leads from it; its photos go where nothing else is related to them. */
function removeRow() {
  const { table, row } = form;
  return keepAndClose([removalOf(table, plain(row))]);
}

function listenToForm() {
  const row = () => ({ id: freshId(), title: "", note: "", amount: 0 });
  const fresh = () => ({ table: byId("book").value, row: row(), fresh: true });
  byId("fresh").addEventListener("click", () => isHeld() || openForm(fresh()));
  byId("tap").addEventListener("click", () => tap(!isTapping()));
  const middle = () => map.getCenter();
  byId("middle").addEventListener("click", () => map && setPlace(middle().lng, middle().lat, digitsHere()));
  byId("here").addEventListener("click", placeByDevice);
  byId("shot").addEventListener("click", placeByPhoto);
  byId("lead").addEventListener("click", () => lead(!isLeading()));
  document.addEventListener("visibilitychange", stayAwake);
  byId("into").addEventListener("change", () => { form.table = byId("into").value; showPhotos(); });
  for (const it of ["east", "north"]) byId(it).addEventListener("input", showDraft);
  for (const it of ["camera", "pictures"]) byId(it).addEventListener("change", choose);
  twice(byId("leave"), closeForm, isHeld);
  twice(byId("remove"), removeRow);
  byId("edit").addEventListener("submit", event => { event.preventDefault(); save(); });
  byId("edit").addEventListener("keydown", event => event.key === "Escape" && (isHeld() || closeForm()));
  byId("edit").addEventListener("input", () => keepDraft());
  byId("edit").addEventListener("change", () => keepDraft("strict"));
  // A photo that is on its way isn't kept yet.
  addEventListener("beforeunload", event => form?.coming && event.preventDefault());
}
