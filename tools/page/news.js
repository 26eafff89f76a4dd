// What others write: the package is asked now and then, and what they have changed is read anew.

const LOOK = 30000;  // milliseconds until the package is asked again what has changed

const OWN_TABLE = location.pathname.split("/").at(-2);

/** When a table changed last, as the package told. */
const changeOf = table => rows.contents.find(it => it.table === table)?.last_change ?? "";

const namesOfTables = list => list.map(it => it.table).sort().join();

/** Asks what has changed, and reads the rows that are shown anew where another has written some. */
async function lookForNews() {
  if (document.hidden || isAway() || hasEnded() || isSending()) return;
  const told = await ask(`${ROOT}contents`, "json", isContents), before = changeOf(OWN_TABLE);
  if (!told || isSending()) return;
  const areOthers = namesOfTables(told) !== namesOfTables(rows.contents);
  const others = phrase("The package has other tables than before: load this page again to see them.");
  if (areOthers) sayFor("others", others);
  takeContents(told);
  if (changeOf(OWN_TABLE) !== before) tellOlder(await ask("4", "json"));
  if (rows.showing && changeOf(rows.showing) !== rows.asOf) await readRows();
  else await readAlongside();
}

/** Says where this page isn't the package's any more: item 4 tells which script the package's page has. */
function tellOlder(known) {
  const policy = document.querySelector("meta[http-equiv]").content;
  if (!known?.page || policy.includes(known.page)) return;
  say("older", phrase("The package has a newer page than this: load it again. What is typed and what waits stays."));
}

/** Tells in the form that its row isn't as it saw it any more. */
function tellOther() {
  if (!form || form.fresh || form.act || form.table !== rows.showing) return;
  const there = rows.stood.get(form.row.id), isOther = form.saw && !isSameRow(there, form.saw);
  const isOwn = outbox.waiting.some(it => rowIn(it) === form.row.id && it.table === form.table);
  byId("which").textContent = phrase(!isOther || isOwn ? "Row {0}"
    : there ? "Row {0}, which another has changed meanwhile" : "Row {0}, which another has removed", form.row.id);
}

function listenToOthers() {
  addEventListener("focus", lookForNews);
  document.addEventListener("visibilitychange", lookForNews);
  setInterval(lookForNews, LOOK);
}
