// The tables whose rows lie on the map beside those of the table that is worked on.

const TABLES_CHOSEN = `mmpkg tables ${ROOT}`;
const MOST_ALONGSIDE = 10000;  // rows of a table that isn't worked on

let choice = null;               // what is chosen of the tables, once it was read
const alongside = new Map();     // by table that isn't worked on, its rows by id (stood), as of which change (asOf)
let isReadingTables = false, isAskedAgain = false;
let doneAlongside = [];          // the acts that were done since rows were asked for, which the answer may not tell

/** What is chosen of the tables on the map. */
function choiceOfTables() {
  try {
    choice ??= choiceKept(localStorage.getItem(TABLES_CHOSEN));
  } catch {
    choice = choiceKept(null);  // a browser that keeps nothing
  }
  return choice;
}

/** Changes what is chosen, keeps it, and shows it. */
function chooseOfTables(change) {
  choice = { ...choiceOfTables(), ...change };
  try {
    localStorage.setItem(TABLES_CHOSEN, JSON.stringify(choice));
  } catch { /* a browser that keeps nothing */ }
  showMarks();
  readAlongside();
}

/** Has the rows of a table on the map, or not. */
function switchTable(table, on) {
  const others = choiceOfTables().off.filter(it => it !== table);
  chooseOfTables({ off: on ? others : [...others, table] });
}

/** Whether a table's rows are on the map: those of the one that is worked on always are. */
const isTableOn = table => table === rows.showing || !choiceOfTables().off.includes(table);

/** All rows of a table, as far as they are known here, with what waits over them. */
const allRowsOf = table => table === rows.showing ? rowsNow()
  : rowsNow(table, alongside.get(table)?.stood ?? new Map());

/** Each table with its look, and the rows that the map has of it: those that are searched for. The last lies on top. */
function tablesOnMap() {
  const words = wordsSearched();
  const found = tables().map(({ table, identifier }, at) => {
    const isOn = isTableOn(table), isWorkedOn = table === rows.showing, all = isOn ? allRowsOf(table) : [];
    const listed = isWorkedOn ? rows.found : all.filter(it => hasAll(it, words));
    const told = toldByMarks(choiceOfTables().tells, all), style = styleOfTable(at);
    return { table, identifier, style, isOn, isWorkedOn, all, listed, told };
  });
  return [...found.filter(it => !it.isWorkedOn), ...found.filter(it => it.isWorkedOn)];
}

/** Opens a row of a table on the map, which is worked on then. */
function openOf(table, row) {
  if (table !== rows.showing && !changeTable(table)) return;
  open(row);
}

/** Works on another table, unless that would lose what is typed; answers whether it does. */
function changeTable(table) {
  const isHere = !isHeld();
  byId("book").value = isHere ? table : rows.showing;
  if (!isHere) return false;
  closeForm();
  workOn(table, alongside.get(table));
  return true;
}

/** A table that was worked on lies beside another from now on. */
function layAlongside(table, stood, asOf) {
  if (table) alongside.set(table, { stood, asOf });
}

/** Takes over what an act that was done has changed. */
function standsAlongside(act) {
  doneAlongside.push(act);
  const there = alongside.get(act.table);
  if (there) takeOver(there.stood, act);
}

/** Reads the rows of the tables on the map that aren't worked on, where they have changed since they were read. */
async function readAlongside() {
  isAskedAgain = true;
  if (isReadingTables) return;
  isReadingTables = true;
  try {
    while (isAskedAgain) {
      isAskedAgain = false;
      for (const { table } of tables()) await readTable(table);
    }
  } finally {
    isReadingTables = false;
  }
}

/** Reads the rows of a table that isn't worked on, and shows them. */
async function readTable(table) {
  const since = changeOf(table), isAsked = table === FORMS || map && isTableOn(table);
  if (table === rows.showing || !isAsked || alongside.get(table)?.asOf === since) return;
  doneAlongside = [];
  const all = await wholeTable(table);
  if (!all || table === rows.showing) return;
  for (const act of doneAlongside.filter(it => it.table === table)) takeOver(all, act);
  alongside.set(table, { stood: all, asOf: since });
  showMarks();
  if (table === FORMS) showFieldsAnew();
}

/** The rows of a table, as many as lie beside another; null where the package doesn't tell them. */
async function wholeTable(table) {
  const all = new Map();
  for (let from = 1, isMore = true; isMore && all.size < MOST_ALONGSIDE;) {
    const first = from, told = await ask(`${ROOT}rows/${table}/${first}`, "json", it => isRows(it, first));
    if (!told) return null;
    for (const row of told) all.set(row.id, row);
    isMore = told.length === ROWS_AT_ONCE;
    from = isMore ? told.at(-1).id + 1 : from;
  }
  const isEmpty = all.size === 0 && alongside.get(table)?.stood.size > 0;
  return isEmpty && await whose() !== "there" ? null : all;
}
