// Out of the page: what is listed as a file that the browser keeps.

// By the end of a file's name, what makes its text and its type.
const FILES = {
  csv: [csvOf, "text/csv"], geojson: [geoJsonOf, "application/geo+json"], gpx: [gpxOf, "application/gpx+xml"],
};

/** A day as the device's clock has it, as in 2026-06-15. */
const dayTold = date => [date.getFullYear(), date.getMonth() + 1, date.getDate()]
  .map(it => String(it).padStart(2, "0")).join("-");

/** What rows of the table that is shown tell, with degrees that were brought over. */
function listingNow(list, beyond = undefined) {
  const table = rows.showing, identifier = rows.contents.find(it => it.table === table)?.identifier ?? table;
  const when = `${new Date().toISOString().slice(0, 19)}Z`;
  return listingOf({ table, identifier, when }, list, rows.only, rows.systems, beyond);
}

/** Has the browser keep a file. */
function giveFile(blob, name) {
  const href = URL.createObjectURL(blob);
  Object.assign(document.createElement("a"), { href, download: name }).click();
  setTimeout(() => URL.revokeObjectURL(href), PATIENCE);
}

/** Gives what is listed as a file of the kind that is chosen, and says what isn't as somebody may think. */
async function keepListed() {
  const kind = byId("kind").value, [make, type] = FILES[kind], beyond = await degreesBeyond(rows.found);
  const listing = listingNow(rows.found, beyond);
  const name = `${rows.showing}-${dayTold(new Date())}.${kind}`, all = listing.rows;
  const without = kind === "csv" ? 0 : all.filter(it => !it.degrees).length;
  const count = kind === "gpx" ? all.length - without : all.length, waiting = all.filter(it => it.row.waits).length;
  giveFile(new Blob([make(listing)], { type }), name);
  byId("filed").textContent = [plural(count, "{0} row is in {1}.", "{0} rows are in {1}.", count, name),
    without === 0 ? "" : kind === "gpx" ? phrase("Left out, for want of degrees: {0}.", without)
      : phrase("Without a geometry, for want of degrees: {0}.", without),
    ...beyond.said, waiting ? phrase("Not in the package yet, and marked so: {0}.", waiting) : ""]
    .filter(it => it).join(" ");
}

function listenToOut() {
  byId("get").addEventListener("click", keepListed);
  byId("out").addEventListener("toggle", () => { byId("filed").textContent = ""; });
}
