// Shapes behind the work, as parcels and lines are: those in sight, and names beside those that have room.

const BEFOREHAND = 0.25;  // the part of the sight beside it for which shapes are asked too
const MOST_NAMES = 60;
// No mark, no place and no device has these.
const COLOURS = ["#00695c", "#ad1457", "#5d4037", "#37474f"];

/**
 * A canvas of Leaflet's that draws nothing once it has gone. What it was to draw before the map moved Leaflet forgets,
 * and doesn't call off where the map goes then.
 */
const newCanvas = how => new (L.Canvas.extend({
  _redraw() {
    if (this._ctx) L.Canvas.prototype._redraw.call(this);
  },
}))(how);

/** The layer of shapes: those in sight, and names beside those that have room. */
function shapesLayer(it) {
  const pane = paneOf(it), renderer = newCanvas({ pane, padding: BEFOREHAND });
  const before = { renderer, box: null, pixel: 0, column: "", stop: null, names: [], shapes: null, count: "" };
  const layer = Object.assign(L.layerGroup(), before);
  return layer.on("remove", () => { forgetShapes(layer); });
}

/** Asks for the shapes in sight, where those that are there don't do; what was asked for before isn't wanted then. */
async function askShapes(it) {
  const { layer } = it, pixel = metresAt(shown, map.getZoom()), sight = boxInSight();
  const isThere = layer.box && layer.pixel === pixel && layer.column === it.look.column && isIn(sight, layer.box);
  if (isThere) return nameShapes(it);
  layer.stop?.abort();
  const stop = new AbortController(), box = padded(sight, BEFOREHAND), { column } = it.look;
  Object.assign(layer, { stop, box, pixel, column });
  const place = [it.map.number, rows.epsg[shown.srs_id], ...box, pixel].join("/");
  const { body, why } = await askMaps(`shapes/${place}?${new URLSearchParams({ name: column })}`, "json", stop.signal);
  if (stop.signal.aborted) return;
  it.why = why;
  if (body) return drawShapes(it, body.features ?? [], Boolean(body.more));
  layer.box = null;
  tellBehind();
}

/** Shapes that aren't shown any more are asked for anew where they are again. */
function forgetShapes(layer) {
  layer.stop?.abort();
  for (const name of layer.names) name.remove();
  Object.assign(layer, { box: null, names: [], shapes: null, count: "" });
  layer.clearLayers();
}

/** Draws shapes that came in place of those of before. */
function drawShapes(it, features, hasMore) {
  const { layer } = it, color = COLOURS[it.map.number % COLOURS.length];
  const how = { renderer: layer.renderer, pane: paneOf(it), interactive: false, color, weight: 2, fill: false };
  const shapes = L.geoJSON(features, { ...how, style: how, coordsToLatLng: ([east, north]) => L.latLng(north, east),
    pointToLayer: (_, place) => L.circleMarker(place, { ...how, radius: 4, fill: true, fillOpacity: 1 }) });
  layer.clearLayers();
  layer.addLayer(shapes);
  const count = numeral(features.length.toLocaleString("en"));
  layer.count = hasMore ? phrase("more than the {0} that are drawn: go nearer", count) : "";
  layer.shapes = shapes;
  nameShapes(it);
  tellBehind();
}

/** Has names in the midst of those shapes in sight that have room for them. */
function nameShapes(it) {
  const { layer } = it, sight = map.getBounds();
  for (const name of layer.names) name.remove();
  layer.names = [];
  if (!it.look.column || !layer.shapes) return;
  const seen = layer.shapes.getLayers().flatMap(shape => nameInSight(shape, sight) ?? []);
  layer.names = withRoom(seen, MOST_NAMES).map(({ text, place }) => {
    const how = { permanent: true, direction: "center", pane: paneOf(it), className: "named", offset: [0, 0] };
    return L.tooltip(how).setLatLng(place).setContent(element("span", text)).addTo(map);
  });
}

/** The name of a shape and the middle of what is seen of it; null where it has none, or isn't seen. */
function nameInSight(shape, sight) {
  const text = String(shape.feature.properties?.name ?? ""), point = shape.getLatLng?.();
  const box = point ? L.latLngBounds(point, point) : shape.getBounds();
  if (!text || !sight.intersects(box)) return null;
  const side = (of, name) => of(box[name](), sight[name]());
  const place = L.latLng((side(Math.max, "getSouth") + side(Math.min, "getNorth")) / 2,
    (side(Math.max, "getWest") + side(Math.min, "getEast")) / 2);
  return { text, place, ...map.latLngToContainerPoint(place) };
}
