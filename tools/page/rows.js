// The rows of the table that is shown, as the package has them with what waits over them, and as the list shows them.

const ROWS_AT_ONCE = 1000, SHOWN_ROWS = 100;
const THIN = 150;  // milliseconds behind the last letter until the map shows what is searched alone
const WORDS = new Intl.Collator(undefined, { numeric: true });
// By its name, what a row is ordered by, and how two of these are.
const ORDERS = {
  newest: [it => -it.id, (one, other) => one - other],
  oldest: [it => it.id, (one, other) => one - other],
  title: [it => it.title, WORDS.compare],
  amount: [it => -it.amount, (one, other) => one - other],
  near: [it => farFromNear(placeIn(it.note)), (one, other) => one - other],
};
// By what a row waits for, the words of it.
const WAITS = toSay({ waits: "waits", refused: "refused", changed: "changed meanwhile" });

// What the package has told, which this file alone writes: its tables and maps (contents); of item 4 relations
// (mapping, base, related, name), by number the parameters of systems that the page can reckon (systems), the numbers
// of systems at EPSG (epsg), and how PROJ is asked for others (beyond); the system of all maps, null where they have
// several: a place that names none is of it (only); the table whose rows are shown (showing), these by id (stood), the
// table's last change as it was told before they were asked for (asOf), and those that are searched for, in their order
// (found).
const rows = {
  contents: [], relations: [], systems: {}, epsg: {}, beyond: {}, only: null, showing: "", stood: new Map(), asOf: "",
  found: [],
};
let turn = 0;             // how often rows were asked for: only the last answer is shown
let meanwhile = [];       // the acts that were done since then, which that answer may not tell
let most = SHOWN_ROWS;    // how many rows the list has
let thinning = 0;         // what draws the marks of what is searched, once no letter comes any more
const texts = new WeakMap();  // what is searched, by row
const places = new WeakMap();  // the place of a row's note, null where it tells none

/** Takes over which tables and maps the package has. */
function takeContents(contents) {
  rows.contents = contents;
}

/** Takes over what was known when the page was made, and of which system all maps are. */
function takeKnown(known) {
  const maps = new Set(rows.contents.filter(it => it.extent).map(it => it.srs_id));
  const only = maps.size === 1 ? [...maps][0] : null;
  const { relations = [], systems = {}, epsg = {}, beyond = {} } = known ?? {};
  Object.assign(rows, { relations, systems, epsg, beyond, only });
}

/** Takes over the system of a map that lies behind a package without one, and how it is reckoned, if it is. */
function takeSystem(number, parameters) {
  rows.epsg[number] = number;
  if (parameters) rows.systems[number] = parameters; else rows.beyond[number] = { epsg: number };
}

/** The tables that a crew works on. */
const tables = () => rows.contents.filter(it => it.kind === "attributes" && !isPastTable(rows.relations, it.table));

/** What relates rows of a table to what they were, as long as the package has that; null where it keeps none. */
const historyOf = table => rows.contents.some(it => it.table === HISTORY) ? pastOfTable(rows.relations, table) : null;

/** A number that no other crew makes; of a file of a row by its type. */
const freshId = (type = null) => (isShape(type) ? shapeNumberAt : numberAt)(Date.now(),
  crypto.getRandomValues(new Uint32Array(2)));

/** The rows of a table as they stood, or of the table that is shown, with what waits over them. */
function rowsNow(table = rows.showing, stood = rows.stood) {
  const all = new Map(stood);
  for (const act of outbox.waiting.filter(it => it.table === table)) {
    const waits = act.refused ? "refused" : act.apart ? "changed" : "waits";
    if (act.row) all.set(act.row.id, { ...act.row, waits });
    else if (act.dropped && waits === "waits") all.delete(act.dropped);
  }
  return [...all.values()];
}

/** Takes over what an act that was done has changed. */
function stands(act) {
  waitsNoMore(act);
  noteChange(act);
  meanwhile.push(act);
  if (act.table === rows.showing) takeOver(rows.stood, act);
  standsAlongside(act);
  standsAsShape(act);
  if (form && act.of === form.row.id) showPhotos();
}

function takeOver(all, { row, dropped }) {
  if (row) all.set(row.id, row);
  if (dropped) all.delete(dropped);
}

/**
 * Asks for all rows of the table that is chosen, as many at once as the package tells. What was done before they came
 * is theirs too.
 */
async function readRows() {
  const table = byId("book").value, now = ++turn, all = new Map(), since = changeOf(table);
  meanwhile = [];
  for (let first = 1, more = Boolean(table); more;) {
    const from = first, told = await ask(`${ROOT}rows/${table}/${from}`, "json", it => isRows(it, from));
    if (turn !== now) return;
    if (!told && table === rows.showing) return;
    const isEmpty = told?.length === 0 && table === rows.showing && rows.stood.size > 0;
    if (isEmpty && await whose() !== "there" || turn !== now) return;
    if (!told) break;
    for (const row of told) all.set(row.id, row);
    more = told.length === ROWS_AT_ONCE;
    first = more ? told.at(-1).id + 1 : first;
  }
  for (const act of meanwhile.filter(it => it.table === table)) takeOver(all, act);
  if (table !== rows.showing) leaveTable();
  Object.assign(rows, { stood: all, showing: table, asOf: since });
  showFound();
  tellOther();
  readAlongside();
}

/** The table that is shown so far lies beside another from now on. */
function leaveTable() {
  most = SHOWN_ROWS;
  layAlongside(rows.showing, rows.stood, rows.asOf);
}

/** Shows another table, with the rows that the map has of it, if any, until they are read anew. */
function workOn(table, there) {
  if (there && table !== rows.showing) {
    leaveTable();
    Object.assign(rows, { ...there, showing: table });
    showFound();
  }
  readRows();
}

/** A button that opens the form of the row that it shows. */
function rowItem() {
  const button = Object.assign(element("button", ""), { type: "button" }), item = element("li", "", button);
  button.addEventListener("click", () => open(item.row));
  return item;
}

/** Shows a row in its item, which stays the same while the row changes: else a tap under way would be lost. */
function fillItem(item, row) {
  const place = placeIn(row.note), way = byId("order").value === "near" ? wayFromNear(place) : "";
  const words = [way, unsigned(place ? place.rest : row.note), row.amount || "", wordsOfWho(row.note),
    row.waits ? `(${phrase(WAITS[row.waits])})` : ""];
  const [title, more] = [row.title || phrase("(no title) {0}", row.id), words.filter(it => it !== "").join(" · ")];
  item.row = row;
  if (item.told === title + more) return item;
  item.told = title + more;
  item.firstElementChild.replaceChildren(title, element("small", more));
  item.firstElementChild.className = row.waits ?? "";
  return item;
}

/** Puts items into a list in their order; those that are in it stay where they are, as far as that goes. */
function arrange(list, items) {
  const wanted = new Set(items);
  for (const it of [...list.children]) if (!wanted.has(it)) it.remove();
  for (const [at, it] of items.entries()) {
    if (list.children[at] !== it) list.insertBefore(it, list.children[at] ?? null);
  }
}

/** What is searched of a row; made once for each, since a list of thousands is searched at each letter. */
function textOf(row) {
  const { id, title, note, amount } = row;
  if (!texts.has(row)) texts.set(row, folded(`${title} ${placeIn(note)?.rest ?? note} ${amount} ${id}`));
  return texts.get(row);
}

/** The place that a row's note tells; read once for each, since a map of thousands is drawn at each move. */
function placeOfRow(row) {
  if (!places.has(row)) places.set(row, placeIn(row.note));
  return places.get(row);
}

/** The words that are searched for. */
const wordsSearched = () => folded(byId("search").value.trim()).split(/\s+/);

const hasAll = (row, words) => words.every(it => it === "" || textOf(row).includes(it));

/** The rows that have all words that are searched for, in the order that is chosen. */
function foundOf(all) {
  const words = wordsSearched(), [key, compare] = ORDERS[byId("order").value];
  const keyed = all.filter(it => isOfWhom(it) && hasAll(it, words)).map(it => [key(it), it]);
  return keyed.sort(([one, first], [other, second]) => compare(one, other) || first.id - second.id).map(([, it]) => it);
}

/** Shows the rows that are searched for in the list and on the map. */
function showFound() {
  clearTimeout(thinning);
  tellCrews(rowsNow());
  showRows();
  showMarks();
  tellSlips();
}

/** Tells how many rows and maps have a slip that nothing else shows. */
function tellSlips() {
  const words = wordsOfSlips(rowsNow(), rows.contents.filter(it => it.extent), rows.only);
  byId("slips").hidden = words === "";
  if (byId("slips").textContent !== words) byId("slips").textContent = words;
}

/** Searches for what is typed; the map has its marks once no letter comes any more. */
function search() {
  most = SHOWN_ROWS;
  showRows();
  clearTimeout(thinning);
  thinning = setTimeout(showMarks, THIN);
}

/** How many rows are found of how many, and how many of them the list has. */
function wordsOfCount(found, all, listed) {
  if (listed < found) {
    return found === all ? phrase("{0} rows, {1} are shown", all, listed)
      : phrase("{0} of {1} rows, {2} are shown", found, all, listed);
  }
  return found === all ? plural(all, "{0} row", "{0} rows")
    : plural(all, "{0} of {1} row", "{0} of {1} rows", found, all);
}

/** Shows the rows that are searched for in the list. */
function showRows() {
  const all = rowsNow(), found = foundOf(all), part = found.slice(0, most), list = byId("rows");
  rows.found = found;
  const there = new Map([...list.children].map(it => [it.row.id, it]));
  arrange(list, part.map(row => fillItem(there.get(row.id) ?? rowItem(), row)));
  byId("count").textContent = wordsOfCount(found.length, all.length, part.length);
  byId("more").hidden = part.length === found.length;
  tellNearest();
}

/** Has the list have more rows. The focus stays beside it where the button goes. */
function showMoreRows() {
  most += SHOWN_ROWS;
  showRows();
  if (byId("more").hidden) byId("search").focus({ preventScroll: true });
}
