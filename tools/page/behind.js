// Maps that lie behind the work, drawn by the program that crew.py starts beside the desk. They are no part of the
// package: where that program doesn't answer the list of maps says so, and nothing else waits for it.

const NO_MAPS = phrase("The maps don't answer: what lies behind the work is missing until they do, or the package is " +
  "opened again.");
const LOOKS_OF_MAPS = `mmpkg maps ${ROOT}`;
const SHAPES_PAUSE = 150;  // milliseconds behind a move until shapes are asked for
// What the address tells beside the page: the package's file, and where its maps are drawn.
const TOLD = toldByAddress(location.hash.slice(1));
const MAPS = WORKS ? TOLD.maps : null;

// The maps in their order, which this file alone writes: each with its look, its layer on the map that is shown, why it
// isn't drawn, and where its list says that.
let lying = [];
let own = lookOf("");  // the look of the package's own map
let asksShapes = 0;    // what asks for shapes, once the map has come to rest

narrowPolicy();

/** Keeps the page from all addresses but its own and that of its maps; the policy that it comes with knows no port. */
function narrowPolicy() {
  const policy = document.createElement("meta");
  document.head.append(Object.assign(policy, { httpEquiv: "Content-Security-Policy", content: policyFor(MAPS) }));
}

/**
 * What the program of maps answers: a body, or null with why there is none. That it doesn't answer is said, but where
 * nobody waits for it any more.
 */
async function askMaps(path, form, stop = null) {
  const signal = stop ?? AbortSignal.timeout(ANSWERS);
  try {
    const response = await fetch(MAPS + path, { credentials: "omit", redirect: "error", signal });
    const body = response.ok ? await response[form]() : null;
    if (byId("mapped").textContent === NO_MAPS) byId("mapped").textContent = "";
    return { body, why: response.status === 500 ? await response.text() : "" };
  } catch {
    if (!stop?.aborted) byId("mapped").textContent = NO_MAPS;
    return { body: null, why: "" };
  }
}

/** The list of maps in a system, or in one that suits them where none is told; null where it can't be had. */
async function askList(system = null) {
  const { body } = await askMaps(system === null ? "maps" : `maps?system=${system}`, "json");
  return isMaps(body) ? body : null;
}

/** A map over those that lie behind the work, for a package that has none; null where none is anywhere. */
async function pyramidOfMaps() {
  if (!MAPS) return null;
  const known = Object.keys(rows.systems).map(Number).find(it => rows.epsg[it]);
  const told = await askList(known === undefined ? null : rows.epsg[known]);
  const system = known ?? told?.system, laid = told && laidOver(told.maps, system);
  if (!laid) return null;
  if (known === undefined) takeSystem(system, told.reckoned);
  return pyramidOf(laid.content, laid.known);
}

/** Puts the maps behind the map that is shown, in its system. */
async function showBehind() {
  byId("maps").hidden = !MAPS;
  lying = [];
  if (!MAPS) return;
  const now = map, system = rows.epsg[shown.srs_id], looks = keptLooks();
  own = lookOf("", looks.find(it => it?.name === ""));
  const list = await askList(system ?? null), told = system && list;
  if (map !== now) return;
  const why = phrase("No map lies behind one of system {0}: EPSG has no such system.", shown.srs_id);
  if (!system) byId("mapped").textContent = why;
  byId("maps").hidden = list?.maps.length === 0;  // that program knows systems too, also where no map lies behind
  if (told) lying = inOrder(told.maps, looks).map(it => ({ ...it, layer: null, why: "" }));
  for (const it of lying) it.layer = layerOf(it);
  map.on("moveend", followBehind);
  arrangeBehind();
}

/** What was chosen of maps before, in this browser. */
function keptLooks() {
  try {
    const kept = JSON.parse(localStorage.getItem(LOOKS_OF_MAPS));
    return Array.isArray(kept) ? kept : [];
  } catch {
    return [];  // a browser that keeps nothing
  }
}

/** Keeps the looks of the maps, and behind them those of maps that aren't there today. */
function keepLooks() {
  const now = [own, ...lying.map(it => it.look)], names = new Set(now.map(it => it.name));
  const others = keptLooks().filter(it => it && !names.has(it.name));
  try {
    localStorage.setItem(LOOKS_OF_MAPS, JSON.stringify([...now, ...others]));
  } catch { /* a browser that keeps nothing */ }
}

/** The pane of a map: pictures lie below the package's tiles, shapes above them and below the rows. */
const paneOf = it => `behind-${it.map.number}`;

/** The layer of a map in a pane of its own; null where it can't be opened. */
function layerOf(it) {
  if (it.map.kind === "none") return null;
  map.createPane(paneOf(it)).style.pointerEvents = "none";
  return it.map.kind === "picture" ? partsLayer(it) : shapesLayer(it);
}

/** Has all maps lie in their order, and as strong as they were chosen; then lists them. */
function arrangeBehind() {
  for (const [at, it] of lying.entries()) {
    if (!it.layer) continue;
    const above = it.map.kind === "picture" ? 100 : 300;
    const how = { zIndex: above + lying.length - at, opacity: it.look.strength / 100 };
    Object.assign(map.getPane(paneOf(it)).style, how);
    if (it.look.on !== map.hasLayer(it.layer)) it.layer[it.look.on ? "addTo" : "remove"](map);
  }
  Object.assign(map.getPane("tilePane").style, { opacity: own.strength / 100, display: own.on ? "" : "none" });
  listLayers(own, lying);
  followBehind();
}

/** Changes the look of a map, which is kept. */
function lookAnew(look, change) {
  Object.assign(look, change);
  keepLooks();
  arrangeBehind();
}

/** Keeps why a map isn't drawn, and says it. */
function sayOfMap(it, why) {
  if (it.why === why) return;
  it.why = why;
  tellBehind();
}

/** Moves a map in their order, which is kept. */
function moveBehind(at, by) {
  lying = movedInList(lying, at, by);
  lookAnew(lying[at].look, {});
}

/** The box that is seen, in metres. */
function boxInSight() {
  const sight = map.getBounds();
  return [sight.getWest(), sight.getSouth(), sight.getEast(), sight.getNorth()];
}

/** Asks for what the map shows once it has come to rest, and tells what isn't seen. */
function followBehind() {
  clearTimeout(asksShapes);
  asksShapes = setTimeout(() => lying.filter(it => it.look.on && it.layer?.renderer).forEach(askShapes), SHAPES_PAUSE);
  tellBehind();
}

/** Why a map that is on isn't seen here, in words; empty where it is. */
const whyUnseen = it => wordsOfMap(it.map, metresAt(shown, map.getZoom()), boxInSight()) || it.why;

/** Whether a picture behind the work is seen, so that a place without a tile isn't empty. */
const hasGround = () => lying.some(it => it.map.kind === "picture" && it.look.on && !whyUnseen(it));

/** Tells beside each map why it isn't seen here. */
function tellBehind() {
  for (const it of lying) {
    const isAsked = it.look.on || it.map.kind === "none";
    if (it.words) it.words.textContent = isAsked ? whyUnseen(it) || it.layer.count || "" : "";
  }
  tellMissing();
}

