// How the page begins, and what its buttons do.

const packageFile = fileName();
const NO_MAP = phrase("The package has no map yet.");

const option = ({ table, identifier }) => new Option(identifier === table ? table : `${identifier} (${table})`, table);

/** The package's file, as crew.py names it in the address; a browser knows it for that address from then on. */
function fileName() {
  const told = TOLD.file, name = `mmpkg file ${ROOT}`;
  try {
    if (told) localStorage.setItem(name, told);
    return localStorage.getItem(name) ?? told;
  } catch {
    return told;  // a browser that keeps nothing
  }
}

const noZoom = names => phrase("No zoom is laid out yet for {0}: there is nothing to see of it until the office lays " +
  "one out and puts in tiles. Open the package again then.", names);

/** The maps of the package by table; those that can't be shown are said. */
function pyramidsOf(known) {
  const tiled = rows.contents.filter(it => it.extent);
  const pyramids = new Map(tiled.map(it => [it.table, pyramidOf(it, known?.pyramids[it.table])]));
  const unseen = tiled.filter(it => !pyramids.get(it.table));
  const isEmpty = (was, it) => was?.matrices.length === 0 && was.last_change === it.last_change;
  const none = unseen.filter(it => isEmpty(known?.pyramids[it.table], it));
  const strange = unseen.filter(it => !none.includes(it)), names = list => list.map(it => it.identifier).join(", ");
  const anew = phrase("This viewer was made before the zooms of {0}: make the viewer anew to see them.",
    names(strange));
  if (known && strange.length) say("anew", anew);
  if (none.length) say("empty", noZoom(names(none)));
  if (tiled.length === 0) say("start", NO_MAP);
  const item = it => listed(it, pyramids.get(it.table), known?.pyramids[it.table]);
  byId("tables").replaceChildren(...rows.contents.map(item));
  byId("table").replaceChildren(...rows.contents.filter(it => !it.extent).map(option));
  byId("pyramids").replaceChildren(...tiled.filter(it => pyramids.get(it.table)).map(option));
  return pyramids;
}

async function start() {
  if (window.top !== window) return say("start", phrase("This page doesn't work within a page of another address."));
  const noLeaflet = phrase("Leaflet's script, item 2 beside this page, isn't to be had. Take the viewer in anew.");
  if (!window.L) return say("start", noLeaflet);
  takeContents(await ask(`${ROOT}contents`, "json", isContents) ?? []);
  const known = await ask("4", "json");
  if (saidOf("gone")) return whenBack("page", () => location.reload());
  if (!known) {
    say("start", phrase("The matrices, item 4 beside this page, aren't to be had. Take the viewer in anew."));
  }
  const pyramids = pyramidsOf(known);
  takeKnown(known);
  byId("package").textContent = packageFile || phrase("Map package");
  tellOlder(known);
  if (!byId("pyramids").value) await addMapOfMaps(pyramids);
  byId("pyramids").addEventListener("change", event => show(pyramids.get(event.target.value)));
  if (byId("pyramids").options.length) startMap(pyramids.get(byId("pyramids").value));
  if (WORKS && known) {
    for (const it of [listenToStake, listenToTold, listenToOut, listenToReport, listenToCamera, listenToSound,
      listenToWho, listenToTrack, listenToPast]) it();
    await startWork(known);
  }
}

/** Has a package without a map work on those that lie behind it, if there are any. */
async function addMapOfMaps(pyramids) {
  const made = await pyramidOfMaps();
  if (!made) return;
  pyramids.set("", made);
  byId("pyramids").replaceChildren(new Option(made.identifier, ""));
  if (saidOf("start") === NO_MAP) say("start", null);
}

/** Shows the first map, and what its buttons and the pointer do. */
function startMap(pyramid) {
  show(pyramid);
  byId("map").addEventListener("pointermove", point);
  byId("map").addEventListener("pointerdown", point, true);  // on the way down: Leaflet's buttons keep it from going up
  byId("map").addEventListener("keydown", event => /^(Arrow|[-+=])/.test(event.key) && point(null));
  byId("fit").addEventListener("click", fit);
  byId("tiles").addEventListener("click", toTiles);
  byId("go").addEventListener("submit", event => { event.preventDefault(); goTo(byId("wanted").value); });
  for (const it of [listenToMyPlace, listenToReceiver, listenToMeasure, listenToDraw]) it();
}

byId("form").addEventListener("submit", event => {
  event.preventDefault();
  showRelated(byId("table").value, byId("number").value);
});
byId("toggle").addEventListener("click", () => {
  const isHidden = byId("panel").toggleAttribute("hidden");
  byId("toggle").setAttribute("aria-expanded", String(!isHidden));
  byId("anew").hidden = !isHidden || byId("work").hidden || byId("fresh").disabled;
});
byId("anew").addEventListener("click", () => {
  byId("toggle").click();
  byId("fresh").click();
});
new ResizeObserver(() => map?.invalidateSize()).observe(byId("map"));
// Another day's maps are at another address, which the policy of this page doesn't know.
addEventListener("hashchange", () => location.reload());
const failed = why => phrase("This page failed: {0}", why);
addEventListener("unhandledrejection", ({ reason }) => say("failed", failed(reason?.message ?? reason)));
start().catch(error => say("start", failed(error.message)));
