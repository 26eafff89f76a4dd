// Rows on the map, and the place that the form has.

// Up to how many rows have names beside them, and how many pixels of the map each wants for that.
const NAMED_MARKS = 24, NAME_ROOM = 20000;
const EDGE = 0.05;  // the part of the map at each side that shows too little around a place
const WHOLE_MARK = 8, LEGIBLE = 7;  // how large marks are that have a broad edge, and a sign in them, in pixels
const SIGN = 1.4;   // how large a sign is, in parts of its mark
const GROUP = 10;   // how large the mark of several rows is without its digits
const MOST_ALONE = 200;  // up to how many rows of the table that is worked on are in no group

let marks = null, draft = null;  // the layers of the rows, and of the place in the form
let placed = [];                 // the rows that have a place on the map that is shown, the last on top
let marked = new Map();          // by table and id, or by square, its mark, what that shows, and whether it is named

/** Draws the rows that are searched for, of the map's system, at their places. Marks that show the same stay. */
function showMarks() {
  if (!map || !rows.showing) return;
  if (marks?._map !== map) {
    const how = { canvas: newCanvas({ tolerance: 8 }), Mark: markWithCorners() };
    marks = Object.assign(L.layerGroup().addTo(map), how);
    marked = new Map();
  }
  const all = tablesOnMap(), counts = new Map();
  placed = all.flatMap(it => {
    const found = placedOf(it);
    counts.set(it.table, found.length);
    return found;
  });
  drawMarks();
  showLegend(all, counts);
  showLines();
}

/** The canvas that marks are drawn on; null where the map that is shown has none yet. */
const canvasOfMarks = () => map && marks?._map === map ? marks.canvas : null;

/** The places of all rows on the map, as their notes tell them. */
const placesOfMarks = () => placed.map(it => [it.east, it.north]);

/** The rows of a table that have a place on the map that is shown, each with its look. */
function placedOf({ table, listed, style, told, isWorkedOn }) {
  const isFew = isWorkedOn && listed.length <= MOST_ALONE;
  return listed.flatMap(row => {
    const place = placeOfRow(row);
    if (place?.system !== shown.srs_id) return [];
    const look = STYLES_OF_WAITING[row.waits] ?? style, [east, north] = [Number(place.east), Number(place.north)];
    const key = `${table}/${row.id}`, sign = told.of(row)?.sign ?? "";
    return [{ key, table, row, place, east, north, style: look, sign, alone: isFew || Boolean(row.waits) }];
  });
}

/**
 * Draws the marks in sight: the more, the smaller, and where they would hide the map one for those of a square.
 * Names stand beside them where the map has room for all; others have theirs under a pointer.
 */
function drawMarks() {
  if (!map || marks?._map !== map) return;
  const [west, south, east, north] = boxInSight(), zoom = map.getZoom(), { x, y } = map.getSize();
  const sight = { west, south, east, north, pixel: metresAt(shown, zoom) }, before = marked;
  const found = drawnOf(placed, sight, zoom < map.getMaxZoom());
  marked = new Map();
  for (const it of found.marks) {
    const shows = [it.place.east, it.place.north, it.row.title, it.style.fill, it.style.name, it.sign].join();
    const radius = found.sizeOf(it), { mark } = stays(before, it.key, shows, () => markOf(it, radius));
    mark.row = it.row;
    if (mark.getRadius() !== radius) mark.setStyle({ radius, weight: weightOf(radius) });
  }
  for (const it of found.groups) {
    stays(before, it.square, [it.east, it.north, it.items.length].join(), () => groupOf(it));
  }
  for (const { mark } of before.values()) mark.remove();
  for (const { mark } of marked.values()) if (mark.table === rows.showing) mark.bringToFront();
  const hasRoom = found.groups.length === 0 && found.seen.length <= Math.min(NAMED_MARKS, x * y / NAME_ROOM);
  nameMarks(new Set(hasRoom ? found.seen.map(it => it.key) : []));
}

/** A mark stays where it shows the same; else it is made anew. */
function stays(before, key, shows, make) {
  const there = before.get(key), it = there?.shows === shows ? there : { mark: make().addTo(marks), shows };
  if (it === there) before.delete(key);
  marked.set(key, it);
  return it;
}

/** Has names beside some marks. */
function nameMarks(named) {
  for (const [key, it] of marked) {
    if (it.named === named.has(key)) continue;
    it.named = named.has(key);
    const how = { permanent: it.named, direction: "right", offset: [8, 0] };
    it.mark.unbindTooltip().bindTooltip(({ row, words }) => element("span", words ?? nameOf(row)), how);
  }
}

const weightOf = size => size < WHOLE_MARK ? 1 : 2;

/** How a mark is drawn. */
function lookOfMark({ fill, edge, corners }, radius) {
  const how = { renderer: marks.canvas, bubblingMouseEvents: false, fillOpacity: 1 };
  return { ...how, fillColor: fill, color: edge, corners, radius, weight: weightOf(radius) };
}

/** The mark of a row at its place. */
function markOf({ table, place, style, sign, east, north }, size) {
  const mark = new marks.Mark([north, east], { ...lookOfMark(style, size), sign, ink: inkOf(style) });
  return Object.assign(mark, { table }).on("click", event => isTapping() ? tapped(event)
    : isMeasuring() ? measureAt(place.east, place.north) : openOf(table, mark.row));
}

/** The mark of several rows, with their number. A tap on it goes nearer. */
function groupOf({ east, north, items }) {
  const sign = shortly(items.length), radius = GROUP + 2 * sign.length;
  const how = { ...lookOfMark(STYLE_OF_GROUP, radius), sign, ink: inkOf(STYLE_OF_GROUP), height: 12 };
  const words = phrase("{0} rows: go nearer", items.length);
  const mark = Object.assign(new marks.Mark([north, east], how), { words });
  return mark.on("click", event => isTapping() || isMeasuring() ? tapOnMap(event) : goNearer(items));
}

/** Goes so near that several rows are seen as large as they can be together. */
function goNearer(items) {
  const [west, south, east, north] = boxOf(items), { x, y } = map.getSize();
  const fits = Math.floor(zoomOf(shown, Math.max((east - west) / x, (north - south) / y, Number.MIN_VALUE)));
  const zoom = Math.min(Math.max(fits, Math.floor(map.getZoom()) + 1), map.getMaxZoom());
  map.setView([(south + north) / 2, (west + east) / 2], zoom, { animate: false });
}

/** Leaflet's mark, for marks with corners and signs too. */
const markWithCorners = () => L.CircleMarker.extend({
  _updatePath() {
    const { _renderer: canvas, _point: at, _radius: size, options: { corners, sign, ink, height } } = this;
    if (!canvas._drawing || this._empty()) return;
    if (corners) {
      canvas._ctx.beginPath();
      for (const [right, down] of corners) canvas._ctx.lineTo(at.x + right * size, at.y + down * size);
      canvas._ctx.closePath();
      canvas._fillStroke(canvas._ctx, this);
    } else L.CircleMarker.prototype._updatePath.call(this);
    if (sign && size >= LEGIBLE) drawSign(canvas._ctx, sign, at, { ink, height: height ?? size * SIGN });
  },
});

/** Writes a sign into a mark. */
function drawSign(context, sign, { x, y }, { ink, height }) {
  const how = { globalAlpha: 1, fillStyle: ink, textAlign: "center", textBaseline: "middle" };
  Object.assign(context, how, { font: `bold ${height}px system-ui, sans-serif` });
  context.fillText(sign, x, y + 0.5);
}

/** Moves the map where it doesn't show a place of its system, or only at its edge. */
function bringIntoSight(place) {
  const there = place && map && place.system === shown.srs_id && L.latLng(Number(place.north), Number(place.east));
  if (there && !map.getBounds().pad(-EDGE).contains(there)) centreOn(there);
}

/** Draws the place that the form has, and the way to it from a device that leads there. */
function showDraft() {
  draft?.remove();
  showWay();
  const place = placeOnMap(), at = ledFrom();
  if (!place) return;
  const there = [Number(place.north), Number(place.east)], how = { interactive: false, weight: 3, color: "#c00" };
  const way = at ? [L.polyline([[at.north, at.east], there], { ...how, dashArray: "6 8" })] : [];
  draft = L.layerGroup([...way, L.circleMarker(there, { ...how, radius: 13, fill: false })]).addTo(map);
}
