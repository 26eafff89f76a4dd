// What the form's row was before, as the package keeps it in the table 'history': the newest first.

const PAST_AT_ONCE = 20;  // how many more of what a row was are shown each time that more are asked for

// What is shown of it: the form that it is of; the numbers of what isn't read yet, the newest first (left); and what
// was read, each as a row with the number that tells when another took its place (made).
let pastShown = { of: null, left: [], read: [] };

/** Offers what the form's row was, where the package keeps that. */
function offerPast() {
  const isKept = historyOf(form.table) !== null;
  byId("past").open = false;
  byId("past").hidden = !isKept || !rows.stood.has(form.row.id);
  pastShown = { of: null, left: [], read: [] };
  byId("versions").replaceChildren();
  byId("earlier").hidden = true;
  byId("pasts").textContent = "";
}

/** Asks what the form's row was, once for each form that is opened. */
async function readPast() {
  const now = form;
  if (!now || !byId("past").open || pastShown.of === now) return;
  pastShown = { of: now, left: [], read: [] };
  byId("pasts").textContent = phrase("asking ..");
  const related = await ask(`${ROOT}related/${now.table}/${now.row.id}`, "json", isRelated);
  if (form !== now) return;
  pastShown.left = numbersOfPast(related ?? [], historyOf(now.table));
  if (related) await readMorePast();
  else failPast(now);
}

/** What the row was isn't to be had now: opened again it is asked for again. */
function failPast(now) {
  if (form !== now) return;
  byId("pasts").textContent = phrase("What it was isn't to be had now.");
  pastShown.of = null;
}

/** Reads some more of what the form's row was, and shows it. */
async function readMorePast() {
  const now = form, { left } = pastShown, part = left.slice(0, PAST_AT_ONCE), { table, row: { id } } = now;
  const told = await rowsOfPast(part);
  if (form !== now || pastShown.left !== left) return;
  if (!told) return failPast(now);
  const read = part.filter(it => told.has(it)).map(made => ({ made, row: rowBefore(told.get(made), table, id) }));
  pastShown = { of: now, left: left.slice(PAST_AT_ONCE), read: [...pastShown.read, ...read] };
  showPast();
}

/** Rows of the history by their numbers, asked from the least on: an answer has those behind it too. */
async function rowsOfPast(numbers) {
  const found = new Map();
  let reached = 0;
  for (const first of [...numbers].sort((one, other) => one - other)) {
    if (first <= reached) continue;
    const told = await ask(`${ROOT}rows/${HISTORY}/${first}`, "json", it => isRows(it, first));
    if (!told) return null;
    told.forEach(it => found.set(it.id, it));
    reached = told.length === ROWS_AT_ONCE ? told.at(-1).id : Infinity;
  }
  return found;
}

/** Shows what was read; the row as it stands is what came behind the newest. */
function showPast() {
  const { left, read } = pastShown, stood = rows.stood.get(form.row.id) ?? null;
  const list = versionsOf(stood, read, rows.only);
  byId("versions").replaceChildren(...list.map(versionItem));
  byId("pasts").textContent = list.length ? "" : phrase("Nothing is kept of what it was before.");
  byId("earlier").hidden = left.length === 0;
  byId("earlier").textContent = phrase("Show what it was before these ({0})", left.length);
}

/** When a version stood, and who saved it, in words. */
function wordsOfVersion({ row, made }) {
  const till = madeAt(made), who = wordsOfWho(row.note);
  return who || (till === null ? phrase("before") : phrase("until {0}", momentInWords(new Date(till))));
}

/** What a row was, in what it differs from what came behind it, with a button that takes it into the form. */
function versionItem(version) {
  const words = wordsOfVersion(version);
  const lines = bothSides(version.row, version.row, version.parts, rows.only)
    .map(({ part, mine }) => element("p", element("b", `${part} `), mine || phrase("(empty)")));
  const take = Object.assign(element("button", phrase("Take this")), { type: "button" });
  take.setAttribute("aria-label", phrase("Take this: {0}", words));
  take.addEventListener("click", () => takeVersion(version));
  return element("li", element("small", words), ...lines, take);
}

/** Puts what the row was into the form, which isn't saved by that. */
function takeVersion({ row }) {
  const place = placeIn(row.note), note = unsigned(place ? place.rest : row.note);
  const values = { title: row.title, note, amount: row.amount, east: place?.east ?? "", north: place?.north ?? "" };
  for (const [name, value] of Object.entries(values)) byId(name).value = value;
  setOf(form, { place });
  showFields();
  showPlace();
  bringIntoSight(place);
  byId("told").textContent = phrase("This is what it was before: Save has it stand again.");
  keepDraft("strict");
}

function listenToPast() {
  byId("past").addEventListener("toggle", readPast);
  byId("earlier").addEventListener("click", readMorePast);
}
