// Measuring by taps: a way, and the area that it encloses, in metres of the map's system, of which nothing is kept; and
// in the same way a line or an area of the form's row is drawn (draw.js).

const MEASURED = "#0f6b5c";

// While it measures, what this file alone writes: whether a "line" or an "area" is drawn by that, else null (kind); the
// number of the map's system, the points that were tapped, whether the last was snapped, and the layer that shows them.
let measured = null;

const isMeasuring = () => measured !== null;

/** Whether a line or an area is being drawn. */
const isDrawing = () => Boolean(measured?.kind);

/** What is being drawn: its kind, its system and its points; null where nothing is. */
const drawingNow = () => isDrawing() ? { kind: measured.kind, system: measured.system, points: measured.points } : null;

/** Whether the map that is shown is of the system in which it is measured or drawn. */
const isOfThisMap = () => measured?.system === shown?.srs_id;

/** Begins to measure, or to draw; or ends it. The focus doesn't go with the buttons that do. */
function measure(on, { kind = null, system = shown.srs_id, points = [] } = {}) {
  const had = byId("measured").contains(document.activeElement), was = measured?.kind;
  measured?.layer.remove();
  measured = on ? { kind, system, points, isSnapped: false, layer: L.layerGroup() } : null;
  map.doubleClickZoom[on ? "disable" : "enable"]();  // two taps are two points
  if (on) tap(false);
  byId("measure").setAttribute("aria-pressed", String(on && !kind));
  byId("measure").disabled = Boolean(on && kind);
  byId("measured").hidden = !on;
  byId("measured").setAttribute("aria-label", phrase(on && kind ? "What is drawn" : "What is measured"));
  byId("map").classList.toggle("measures", on);
  byId("stop").hidden = Boolean(kind);
  for (const it of ["finish", "scrap"]) byId(it).hidden = !kind;
  byId("corner").hidden = !kind || byId("here").hidden;
  if (had && !on) byId(was ?? "measure").focus({ preventScroll: true });
  showMeasured();
}

/**
 * Takes a place as the next point: where the map was tapped, its middle, or a mark's own place where one was hit. The
 * same place again is none.
 */
function measureAt(...place) {
  const point = place.map(Number);
  if (isOfThisMap() && String(measured.points.at(-1)) !== String(point)) takePoint(point, isDrawing());
}

/** Takes the next point, which may have been snapped to another. */
function takePoint(point, isSnapped) {
  if (isDrawing() && measured.points.length >= MOST_CORNERS) return sayOfDrawing(whyFull());
  measured.points.push(point);
  measured.isSnapped = isSnapped;
  showMeasured();
  if (isDrawing()) keepDraft("strict");
}

/** Does what a tap on the map is for now: it sets the form's place, draws, or measures. */
function tapOnMap(event) {
  if (isTapping() || !isMeasuring()) return tapped(event);
  if (isDrawing()) drawAt(event.latlng);
  else measureAt(event.latlng.lng, event.latlng.lat);
}

/** Takes the last point back. */
function unmeasure() {
  measured.points.pop();
  measured.isSnapped = false;
  showMeasured();
  if (isDrawing()) keepDraft("strict");
}

/** Draws the points on the map, and tells what they measure. */
function showMeasured() {
  if (!measured) return;
  const isHere = isOfThisMap(), points = isHere ? measured.points.map(([east, north]) => [north, east]) : [];
  const how = { interactive: false, color: MEASURED, weight: 3 }, casing = { ...how, color: "#fff", weight: 7 };
  const hasArea = measured.kind !== "line" && points.length > 2 && !crossesItself(measured.points);
  measured.layer.clearLayers().addTo(map);
  if (hasArea) L.polygon(points, { ...how, dashArray: "2 8", fillOpacity: 0.2 }).addTo(measured.layer);
  for (const it of [casing, how]) L.polyline(points, it).addTo(measured.layer);
  const dot = { ...how, color: "#fff", weight: 2, radius: 6, fillColor: MEASURED, fillOpacity: 1 };
  for (const it of points) L.circleMarker(it, dot).addTo(measured.layer);
  byId("length").textContent = isDrawing() ? wordsDrawn(measured, isHere) : wordsOfMeasure(measured.points);
}

/**
 * Draws what was measured on a map that was made anew; where that is of another system, that is over, and what was
 * drawn waits for a map of its own.
 */
function measureAnew() {
  if (measured && !isDrawing() && !isOfThisMap()) return measure(false);
  if (measured) map.doubleClickZoom.disable();
  if (isDrawing()) byId("corner").hidden = byId("here").hidden;
  showMeasured();
}

function listenToMeasure() {
  byId("measure").hidden = false;
  byId("measure").addEventListener("click", () => measure(!isMeasuring()));
  byId("add").addEventListener("click", () => tapOnMiddle());
  byId("undo").addEventListener("click", unmeasure);
  byId("stop").addEventListener("click", () => measure(false));
  // A form that is open has its own Escape, as the report has.
  document.addEventListener("keydown", ({ key, target }) => {
    if (key === "Escape" && isMeasuring() && !isDrawing() && !target.closest("#edit, #report")) measure(false);
  });
}

/** Takes the map's middle as the next point. */
function tapOnMiddle() {
  const { lng, lat } = map.getCenter();
  if (isDrawing()) drawAt({ lng, lat });
  else measureAt(lng, lat);
}
