// A report of the day: rows with their photos, as a page that prints.

const MOST_REPORTED = 500;  // rows

let reporting = 0;                 // how often a report was made: only the last has its photos
let complete = Promise.resolve();  // the promise that all of them have come
let addresses = [];                // of the pictures that it shows
let titleBefore = "";              // the page's, which a browser prints, too

/** The name under which this browser keeps which rows were changed in it today; they are no part of what waits. */
const changesName = () => `${outbox.store.name} changed`;

/** By table, the numbers of the rows that were changed in this browser today. */
function changesOfToday() {
  try {
    const kept = JSON.parse(localStorage.getItem(changesName()) ?? "{}");
    return kept.day === dayTold(new Date()) ? kept.ids : {};
  } catch {
    return {};  // a browser that keeps nothing
  }
}

/** Keeps which row an act has changed today. */
function noteChange({ table, of }) {
  const ids = changesOfToday();
  if (ids[table]?.includes(of)) return;
  ids[table] = [...ids[table] ?? [], of];
  try {
    localStorage.setItem(changesName(), JSON.stringify({ day: dayTold(new Date()), ids }));
  } catch { /* then the report has what was made today, and what waits */ }
}

/** The rows that are listed, and of these the day's. */
function rowsToReport() {
  const [from, to] = [new Date(), new Date()];
  from.setHours(0, 0, 0, 0);
  to.setHours(24, 0, 0, 0);
  const changed = new Set(changesOfToday()[rows.showing]);
  return { listed: rows.found, today: rowsOfDay(rows.found, { from: from.getTime(), to: to.getTime(), changed }) };
}

/** A place in words. */
function wordsOfPlace({ place, degrees }) {
  if (!place) return phrase("no place");
  const { system, east, north } = place, metres = phrase("east {0}, north {1} of system {2}", east, north, system);
  const half = (it, more, less) => `${Math.abs(it).toFixed(6)}° ${phrase(it < 0 ? less : more)}`;
  return degrees ? `${metres} · ${half(degrees.latitude, "N", "S")}, ${half(degrees.longitude, "E", "W")}` : metres;
}

/** A row in the report, and room for its photos. */
function reportedItem(told) {
  const { row, state, rest, words } = told, values = [...words].map(it => it.join(": ")).join(" · ");
  const lines = [wordsOfPlace(told), rest, values, row.amount ? phrase("amount {0}", row.amount) : ""].filter(it => it);
  const marked = Object.assign(element("p", phrase(state)), { className: "waits", hidden: !row.waits });
  const title = row.title || phrase("(no title) {0}", row.id);
  return element("li", element("h2", title), marked, ...lines.map(it => element("p", it)),
    Object.assign(element("div", ""), { className: "pictures" }));
}

/** The photos of a row: those of the package, then those that wait; and whether the package told its own. */
async function photosToReport(row) {
  const table = rows.showing, stands = photosOf(table) && rows.stood.has(row.id);
  const related = stands ? await ask(`${ROOT}related/${table}/${row.id}`, "json", isRelated) : [];
  const there = (related ?? []).filter(it => it.name === "media").map(it =>
    ({ words: `${it.table} ${it.id}`, load: () => ask(`${ROOT}media/${it.table}/${it.id}`, "blob") }));
  const waiting = outbox.waiting.filter(it => it.table === table && it.of === row.id).flatMap(photosIn).map(id =>
    ({ words: phrase("not in the package yet"), load: async () => bodyOfBytes(await photoOf(id)) }));
  return { photos: [...there, ...waiting], isTold: related !== null };
}

/** A photo as the report shows it, small; words of what is no picture. */
async function pictureToReport({ words, load }) {
  const body = await smallPicture(await load()), image = new Image();
  if (!body?.size) return element("span", phrase("{0}: isn't to be had", words));
  if (isPaper(body.type)) return element("span", `${words}: ${wordsOfFile(body)}`);
  const src = URL.createObjectURL(body);
  addresses.push(src);
  Object.assign(image, { src, alt: words });
  return await image.decode().then(() => true, () => false) ? image : element("span", `${words}: ${body.type}`);
}

/** Fills the report's rows with their photos, one behind another. */
async function showPictures(list, items, turn) {
  let count = 0, isWhole = true;
  for (const [at, row] of list.entries()) {
    const { photos, isTold } = await photosToReport(row);
    isWhole &&= isTold;
    for (const it of photos) {
      if (turn !== reporting) return;
      items[at].lastElementChild.append(await pictureToReport(it));
      count += 1;
    }
    if (turn !== reporting) return;
    byId("made").textContent = phrase("Photos come: {0} of {1} rows have theirs.", at + 1, list.length);
  }
  byId("made").textContent = [plural(count, "{0} photo.", "{0} photos."),
    isWhole ? "" : phrase("The package doesn't answer: those that it has aren't all here.")].filter(it => it).join(" ");
}

/** Shows the rows that are chosen, as they stand now. */
function showReport() {
  const all = rowsToReport(), isDay = byId("scope").value === "today", list = all[isDay ? "today" : "listed"];
  const part = list.slice(0, MOST_REPORTED), { identifier, rows: told } = listingNow(part), turn = ++reporting;
  const waiting = part.filter(it => it.waits).length, search = byId("search").value.trim();
  forgetPictures();
  const items = told.map(reportedItem), day = dayTold(new Date());
  byId("day").textContent = document.title = `${identifier}, ${day}`;
  byId("about").textContent = [packageFile, plural(list.length, "{0} row", "{0} rows"),
    phrase(isDay ? "made or changed today" : "all that are listed"), search ? phrase("searched for: {0}", search) : "",
    part.length < list.length ? phrase("the first {0} are here", part.length) : "",
    waiting ? phrase("not in the package yet: {0}", waiting) : ""].filter(it => it).join(" · ");
  byId("reported").replaceChildren(...items);
  byId("made").textContent = phrase("Photos come ..");
  complete = showPictures(part, items, turn);
}

function forgetPictures() {
  for (const it of addresses) URL.revokeObjectURL(it);
  addresses = [];
}

/** Opens the report: of the day's rows where there are some, else of all that are listed. */
function openReport() {
  titleBefore = document.title;
  byId("scope").value = rowsToReport().today.length ? "today" : "listed";
  for (const it of document.querySelectorAll("header, main")) it.inert = true;
  byId("report").hidden = false;
  showReport();
  byId("day").focus();
}

function closeReport() {
  reporting += 1;
  forgetPictures();
  byId("reported").replaceChildren();
  byId("report").hidden = true;
  for (const it of document.querySelectorAll("header, main")) it.inert = false;
  document.title = titleBefore;
  byId("reporter").focus({ preventScroll: true });
}

/** Prints the report, once its photos are there. */
async function printReport() {
  await complete;
  if (!byId("report").hidden) window.print();
}

function listenToReport() {
  byId("reporter").addEventListener("click", openReport);
  byId("scope").addEventListener("change", showReport);
  byId("print").addEventListener("click", printReport);
  byId("back").addEventListener("click", closeReport);
  byId("report").addEventListener("keydown", event => event.key === "Escape" && closeReport());
}
