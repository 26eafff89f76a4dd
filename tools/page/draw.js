// Lines and areas of the form's row, drawn by taps on the map: each tap adds a corner, which snaps to the marks of rows
// and to the corners of what is shown. What is drawn is a file of the row once it is done.

const SNAPS = 20;  // pixels within which a corner snaps

/** What is told of a drawing, in words. */
function wordsDrawn({ kind, system, points, isSnapped }, isHere) {
  if (!isHere) {
    return phrase(kind === "line" ? "The line is in metres of system {0}: show a map of that to go on."
      : "The area is in metres of system {0}: show a map of that to go on.", system);
  }
  const words = isSnapped ? phrase("{0}, snapped", wordsOfDrawing(kind, points)) : wordsOfDrawing(kind, points);
  return rows.systems[system] ? words : phrase("{0} (no degrees: this page can't reckon them here)", words);
}

const whyFull = () =>
  phrase("More than {0} corners are none: begin another.", numeral(MOST_CORNERS.toLocaleString("en")));

/** Says in the form why a drawing isn't taken, or doesn't go on. */
const sayOfDrawing = why => void (byId("told").textContent = why);

/** Begins to draw a line or an area for the form's row. */
function draw(kind) {
  if (!form || !map || !endDrawing()) return;
  sayOfDrawing("");
  measure(true, { kind });
}

/** Goes on with what was drawn when the page was loaded again. */
function drawAgain(kept) {
  if (kept && map) measure(true, kept);
}

/** Adds a corner where the map was tapped, or at what that snaps to: a row's place, a corner, or where it began. */
function drawAt({ lng, lat }) {
  if (!isOfThisMap()) return;
  const { kind, points } = drawingNow(), digits = digitsHere(), reach = SNAPS * metresAt(shown, map.getZoom());
  const begun = points.length > 1 && kind === "line" || points.length > 2 ? [points[0]] : [];
  const near = nearestWithin([lng, lat], [...placesOfMarks(), ...cornersShown(), ...begun], reach);
  const [east, north] = near ?? [lng, lat].map(it => Number(it.toFixed(digits)));
  if (String(points.at(-1)) !== String([east, north])) takePoint([east, north], near !== null);
}

/** Adds a corner where the device is. */
async function drawHere() {
  const now = drawingNow()?.points;
  byId("corner").disabled = true;
  const at = await deviceAt().catch(error => ({ why: whyNoDevice(error) }));
  byId("corner").disabled = false;
  if (!now || drawingNow()?.points !== now) return;
  if (at.why) return sayOfDrawing(at.why);
  const told = at.fix.by === "device" ? toSay("The device tells this corner {0}.")
    : toSay("The receiver tells this corner {0}.");
  sayOfDrawing(phrase(told, withinTold(at.accuracy)));
  const point = [at.east, at.north].map(it => Number(it.toFixed(digitsOf(at.accuracy))));
  centreOn([at.north, at.east]);
  if (isOfThisMap() && String(now.at(-1)) !== String(point)) takePoint(point, false);
}

/** Takes what is drawn into its form, as a file of its row; answers whether nothing is left of it. */
function endDrawing() {
  const drawing = drawingNow();
  if (!drawing) return true;
  const { kind, system, points } = drawing, why = points.length ? whyNoShape(kind, points) : "";
  if (why) {
    sayOfDrawing(phrase("{0} Go on with it, or throw it away.", why));
    return false;
  }
  measure(false);
  if (points.length) {
    const text = geoJsonOfShape(kind, system, points, rows.systems[system]);
    bring(form, [{ name: "", file: new Blob([text], { type: GEOJSON }) }]);
  }
  return true;
}

/** Throws away what is drawn. */
function dropDrawing() {
  if (!isDrawing()) return;
  measure(false);
  sayOfDrawing("");
  keepDraft("strict");
}

/** Whether something is drawn that would be lost. */
const isDrawn = () => Boolean(drawingNow()?.points.length);

/** Offers to draw where there is a map and the form's table takes files. */
function offerDrawing(can) {
  for (const it of ["line", "area"]) byId(it).disabled = !can || !map;
}

function listenToDraw() {
  byId("line").addEventListener("click", () => draw("line"));
  byId("area").addEventListener("click", () => draw("area"));
  byId("corner").addEventListener("click", drawHere);
  byId("finish").addEventListener("click", endDrawing);
  twice(byId("scrap"), dropDrawing, isDrawn);
}
