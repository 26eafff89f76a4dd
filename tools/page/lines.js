// Lines, areas and tracks of rows on the map: those of the table that is worked on, of the form, and of what waits.
//
// The package tells of each row by itself what that is related to. So the rows in sight are asked for, and those that
// have no place, a few hundred at most, one behind another; and of their files those whose numbers may be of a shape.

const MOST_ASKED = 300;    // rows that are asked what they are related to
const ASK_PAUSE = 400;     // milliseconds behind a move until they are
const KEEPS_CLEAR = 0.25;  // the part of the sight beside it in which rows are asked for

const relatedKnown = new Map();  // by table and row, its files that may be shapes (files), as of which change (asOf)
const shapesRead = new Map();    // by a file's address or number, its shape, null where it is none
const shapesComing = new Map();  // by their keys, the promises of those that are being read
const partsKnown = new WeakMap();  // by shape, its parts on a map (parts), and the system of that (system)
let linesShown = null;           // the layer of them, what it shows, and the canvas that it is on
let isAskingShapes = false, isShapeAskedAnew = false, asksForShapes = 0;
let linesDrawn = 0;              // how often they were drawn: only the last counts
let shapesStood = 0;             // how many acts were done, which an answer of before may not tell

/** The shape of a file's bytes; null where it is none. */
const shapeIn = async body => body && isShape(body.type) ? shapeOfText(body.type, await body.text()) : null;

/** The parts of a shape in metres of the map; null where they can't be told there. */
function partsOnMap(shape) {
  const system = shown?.srs_id, known = partsKnown.get(shape);
  if (system === undefined) return null;
  if (known?.system === system) return known.parts;
  const parts = partsIn(shape, system, rows.systems[system]);
  partsKnown.set(shape, { system, parts });
  return parts;
}

/** What a shape is, in words: by its own metres, else by those of a map that the page can reckon. */
function wordsOfShapeHere(shape) {
  const [[number, parameters] = []] = Object.entries(rows.systems);
  const other = () => parameters ? partsIn(shape, Number(number), parameters) : null;
  return wordsOfShape(shape, shape.corners ?? partsOnMap(shape) ?? other());
}

/** A row's file with what is told of it, where it is a shape. */
async function withWords(body) {
  const shape = await shapeIn(body);
  return shape ? Object.assign(body, { shape, told: wordsOfShapeHere(shape) }) : body;
}

/** A shape that is read once, by its key; a file that isn't to be had is asked for again. */
async function shapeRead(key, load) {
  if (shapesRead.has(key)) return shapesRead.get(key);
  const read = async () => {
    const body = await load();
    if (body) shapesRead.set(key, await shapeIn(body));
  };
  const coming = shapesComing.get(key) ?? read().finally(() => shapesComing.delete(key));
  shapesComing.set(key, coming);
  await coming;
  return shapesRead.get(key) ?? null;
}

/** The files of a table's acts that wait, and may be shapes. */
const shapesWaiting = table => outbox.waiting.filter(it => it.table === table).flatMap(act => act.records
  .filter(([word, , , type]) => word === "media" && isShape(type))
  .map(([, , id]) => ({ key: `waits ${id}`, row: act.of, waits: act.refused ? "refused" : "waits",
    load: async () => bodyOfBytes(await photoOf(id)) })));

/** The files of the form that aren't saved yet, and may be shapes. */
const shapesOfForm = () => (form?.photos ?? []).filter(it => isShape(typeOfFile(it.bytes))).map(({ id, bytes }) =>
  ({ key: `waits ${id}`, row: form.row.id, waits: "waits", load: async () => bodyOfBytes(bytes) }));

/** The files in the package of the rows that are listed, as far as they were asked for. */
const shapesThere = table => rows.found.flatMap(({ id }) => (relatedKnown.get(`${table}/${id}`)?.files ?? [])
  .map(address => ({ key: address, row: id, waits: "", load: () => ask(address, "blob") })));

/** Draws the shapes that are known, and asks for others once the map has come to rest. */
function showLines() {
  clearTimeout(asksForShapes);
  if (!map || !rows.showing) return;
  asksForShapes = setTimeout(askForShapes, ASK_PAUSE);
  drawKnown();
}

/** Draws the shapes that are known. */
async function drawKnown() {
  const table = rows.showing, now = map, turn = ++linesDrawn;
  const all = [...shapesThere(table), ...shapesWaiting(table), ...form?.table === table ? shapesOfForm() : []];
  const read = await Promise.all(all.map(async it => ({ ...it, shape: await shapeRead(it.key, it.load) })));
  if (map !== now || rows.showing !== table || turn !== linesDrawn) return;
  const drawn = read.flatMap(it => {
    const parts = it.shape && partsOnMap(it.shape);
    return parts ? [{ ...it, parts }] : [];
  });
  drawLines(table, [...new Map(drawn.map(it => [it.key, it])).values()]);
}

/** Draws shapes in place of those of before, where they are others. */
function drawLines(table, drawn) {
  const canvas = canvasOfMarks(), shows = drawn.map(it => it.key + it.waits).sort().join();
  if (!canvas || linesShown?.canvas === canvas && linesShown.shows === shows && linesShown.table === table) return;
  linesShown?.layer.remove();
  const layer = L.layerGroup(drawn.map(it => layerOfShape(table, it, canvas))).addTo(map);
  layer.eachLayer(it => it.bringToBack());  // a row's mark is hit before its shape
  linesShown = { layer, canvas, shows, table, drawn };
}

/** A shape on the map. A tap on it opens its row, unless the tap is for something else. */
function layerOfShape(table, { shape, parts, row, waits }, renderer) {
  const { fill, edge } = STYLES_OF_WAITING[waits] ?? styleOfTable(tables().findIndex(it => it.table === table));
  const color = fill === LIGHT ? edge : fill, how = { renderer, color, weight: 4, bubblingMouseEvents: false };
  const places = parts.map(part => part.map(([east, north]) => [north, east]));
  const line = shape.kind === "area" ? L.polygon(places[0], { ...how, weight: 3, fillOpacity: 0.15 })
    : L.polyline(places, { ...how, lineCap: "round", dashArray: shape.kind === "track" ? "1 7" : null });
  const casing = L.polyline(shape.kind === "area" ? [...places[0], places[0][0]] : places,
    { renderer, color: LIGHT, weight: 7, opacity: 0.7, interactive: false });
  const layer = L.featureGroup([line, casing]);  // in the order in which they are brought to the back
  layer.bindTooltip(() => element("span", wordsOfShapeHere(shape)), { sticky: true });
  return layer.on("click", event => isTapping() || isMeasuring() ? tapOnMap(event) : openShape(table, row));
}

/** Opens the row of a shape. */
function openShape(table, id) {
  const row = rowsNow().find(it => it.id === id);
  if (row && form?.row.id !== id) openOf(table, row);
}

/** The corners of lines and areas on the map, to which others snap. */
const cornersShown = () => (linesShown?.canvas === canvasOfMarks() ? linesShown?.drawn ?? [] : [])
  .filter(it => it.shape.kind !== "track").flatMap(it => it.parts.flat());

/** The rows whose shapes may be in sight and aren't known: those in it, and those without a place on this map. */
function rowsToAsk() {
  const table = rows.showing, relation = photosOf(table), sight = padded(boxInSight(), KEEPS_CLEAR);
  if (!relation) return [];
  const may = rows.found.filter(row => {
    const place = placeOfRow(row), [east, north] = [Number(place?.east), Number(place?.north)];
    return rows.stood.has(row.id) && (place?.system !== shown.srs_id || isIn([east, north, east, north], sight));
  });
  const asOf = changeOf(relation.related), isKnown = it => relatedKnown.get(`${table}/${it.id}`)?.asOf === asOf;
  return may.sort((one, other) => other.id - one.id).slice(0, MOST_ASKED).filter(it => !isKnown(it));
}

/** Asks what rows are related to whose shapes aren't known; where that is asked for meanwhile it begins anew. */
async function askForShapes() {
  isShapeAskedAnew = true;
  if (isAskingShapes) return;
  isAskingShapes = true;
  try {
    while (isShapeAskedAnew) {
      isShapeAskedAnew = false;
      await askEach(rows.showing, map && !isAway() ? rowsToAsk() : []);
    }
  } finally {
    isAskingShapes = false;
  }
}

/** Asks what rows are related to, one behind another, as long as nobody wants to know others. */
async function askEach(table, list) {
  for (const { id } of list) {
    if (isShapeAskedAnew || rows.showing !== table || !await askRelated(table, id)) return;
  }
}

/** Asks what a row is related to, and keeps which of it may be shapes; answers whether the package told it. */
async function askRelated(table, id) {
  const asOf = changeOf(photosOf(table).related), stood = shapesStood;
  const { is, body } = await asked(`${ROOT}related/${table}/${id}`, "json", isRelated);
  if (is === "gone" || is === "strange") return false;
  if (stood === shapesStood) keepRelated(table, id, body ?? [], asOf);
  return true;
}

const addressOf = (table, id) => `${ROOT}media/${table}/${id}`;

/** Keeps which files of a row may be shapes, by their numbers, or since they were read. */
function keepRelated(table, id, related, asOf) {
  const key = `${table}/${id}`, before = relatedKnown.get(key)?.files ?? [];
  const files = related.filter(it => it.name === "media").map(it => [it.id, addressOf(it.table, it.id)])
    .filter(([number, address]) => isShapeNumber(number) || shapesRead.get(address)).map(([, address]) => address);
  relatedKnown.set(key, { files, asOf });
  if (String(before) !== String(files)) drawKnown();
}

/** Takes over the files of the form's row that its form has read; the map goes to shapes of a row without a place. */
function shapesOfRow(now, related, bodies) {
  const { table, row: { id } } = now;
  for (const [at, body] of bodies.entries()) {
    if (body?.shape) shapesRead.set(addressOf(related[at].table, related[at].id), body.shape);
  }
  keepRelated(table, id, related, changeOf(photosOf(table)?.related));
  const parts = bodies.flatMap(it => it?.shape && partsOnMap(it.shape) || []);
  if (parts.length && !now.isSeen && !placeOnMap()) bringPartsIntoSight(parts);
  setOf(now, { isSeen: true });
}

/** Moves the map where it shows nothing of some parts. */
function bringPartsIntoSight(parts) {
  const [west, south, east, north] = boxOf(parts.flat().map(([east, north]) => ({ east, north })));
  const box = L.latLngBounds([south, west], [north, east]);
  if (!map.getBounds().intersects(box)) fitTo(box.pad(0.2));
}

/** Takes over which shapes an act that was done has brought to its row, or taken off it. */
function standsAsShape({ table, of, records, dropped }) {
  const key = `${table}/${of}`, named = word => records.filter(([it]) => it === word);
  const brought = named("media").filter(it => isShape(it[3]));
  const gone = named("media-drop").map(it => addressOf(it[1], it[2]));
  for (const [, related, id] of brought) {
    if (shapesRead.has(`waits ${id}`)) shapesRead.set(addressOf(related, id), shapesRead.get(`waits ${id}`));
  }
  const before = relatedKnown.get(key)?.files ?? [], more = brought.map(it => addressOf(it[1], it[2]));
  const files = dropped ? [] : [...before, ...more].filter(it => !gone.includes(it));
  shapesStood += 1;
  if (more.length || gone.length || dropped) relatedKnown.set(key, { files, asOf: null });
}
