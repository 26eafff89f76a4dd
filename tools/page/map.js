// The map: a pyramid of the package, drawn by Leaflet in metres of its system.

// The map's state, which this file alone writes: Leaflet's map, and the pyramid that it shows.
let map = null, shown = null;
// The layer of the package's tiles, null where the map that is shown has none.
let tiles = null;
// Where on the map the pointer or a finger was last; null behind keys and over buttons, which are for the centre.
let pointed = null;

/** The layer of a pyramid's tiles. A missing one, which the package answers with 404, stays blank. */
function tilesOf(pyramid) {
  const Tiles = L.GridLayer.extend({
    getTileSize() {
      const matrix = matrixOf(pyramid, this._tileZoom ?? 0), side = Math.min(matrix.pixel_x_size, matrix.pixel_y_size);
      return L.point(matrix.tile_width * matrix.pixel_x_size / side, matrix.tile_height * matrix.pixel_y_size / side);
    },
    createTile({ x, y, z }, done) {
      const image = new Image(), place = `${pyramid.table}/${pyramid.matrices[z].zoom_level}/${x}/${y}`;
      ask(`${ROOT}tiles/${place}`, "blob", body => body.type === "application/octet-stream").then(async body => {
        const isDrawn = !body || await drawn(image, body);
        if (!isDrawn) say("picture", phrase("The tile {0} is no picture that this browser draws.", place));
        done(null, image);
      });
      return image;
    },
  });
  const { least, last } = pyramid;
  const zooms = { minZoom: Math.max(least, -BESIDE), maxZoom: last + BESIDE };
  const layer = new Tiles({ ...zooms, minNativeZoom: 0, maxNativeZoom: last });
  // Tiles meet at whole pixels, and where those are no whole pixels of the screen each overlaps the next: no hair lines
  // between them.
  layer.on("tileloadstart", ({ tile, coords }) => {
    const corner = L.DomUtil.getPosition(tile), from = corner.round(), to = corner.add(layer.getTileSize()).round();
    const more = Number.isInteger(devicePixelRatio) ? 0 : 1;
    L.DomUtil.setPosition(tile, from);
    Object.assign(tile.style, { width: `${to.x - from.x + more}px`, height: `${to.y - from.y + more}px` });
    tile.style.clipPath = clipOf(layer._tileCoordsToBounds(coords), pyramid.kept);
  });
  return layer;
}

/** Draws bytes in an image, and answers whether they are a picture. */
function drawn(image, body) {
  const address = URL.createObjectURL(body);
  Object.assign(image, { src: address, alt: "" });
  const isNone = () => { image.removeAttribute("src"); return false; };
  return image.decode().then(() => true, isNone).finally(() => URL.revokeObjectURL(address));
}

/** Leaflet's scale bar, for parts of a metre too. */
function scaleBar() {
  const bar = L.control.scale({ imperial: false, maxWidth: 160 });
  bar._getRoundNum = metres => {
    const power = 10 ** Math.floor(Math.log10(metres));
    return Number((power * ([5, 3, 2].find(it => it * power <= metres) ?? 1)).toPrecision(1));
  };
  return bar;
}

/**
 * Makes the map anew for a pyramid. Place and size of pixels stay, where it is of the same system and has the place.
 */
function show(pyramid) {
  const before = map && shown.srs_id === pyramid.srs_id && pyramid.bounds.contains(map.getCenter())
    ? [map.getCenter(), Math.round(zoomOf(pyramid, metresAt(shown, map.getZoom())))] : null;
  map?.remove();
  shown = pyramid;
  L.Control.Zoom.mergeOptions({ zoomInTitle: phrase("Zoom in"), zoomOutTitle: phrase("Zoom out") });
  map = L.map("map", { crs: referenceOf(pyramid), minZoom: pyramid.least, maxZoom: pyramid.last + BESIDE,
    attributionControl: false, fadeAnimation: false, tap: false, wheelPxPerZoomLevel: 120 });
  map.on("move zoomend", tell);
  if (before) map.setView(...before); else begin();
  byId("tiles").disabled = pyramid.tiles.every(it => !it);
  map.on("click", tapOnMap);
  tiles = pyramid.table ? showTiles(pyramid) : null;
  tellMissing();
  map.on("moveend", moved);
  outline(pyramid);
  scaleBar().addTo(map);
  document.title = [packageFile, pyramid.identifier].filter(it => it).join(": ");
  showMarks();
  offerDevice();
  offerPlaceOfPhoto();
  showDraft();
  measureAnew();
  drawTrack();
  showBehind();
}

/** Shows the tiles of a pyramid, and says where none is to be seen. */
function showTiles(pyramid) {
  const layer = tilesOf(pyramid).addTo(map);
  whenBack("map", () => {
    say("picture", null);
    layer.redraw();
  });
  layer.on("load", tellMissing);
  map.on("movestart", () => say("picture", null));
  map.on("moveend", tellMissing);
  return layer;
}

/** Outlines a map. */
function outline({ kept }) {
  L.rectangle(kept, { interactive: false, fill: false, weight: 1, color: "#1f3a4d" }).addTo(map);
}

/** The part of a tile within the bounds that are kept, as a style has it: what lies behind is seen outside of them. */
function clipOf(tile, kept) {
  if (kept.contains(tile)) return "";
  const wide = tile.getEast() - tile.getWest(), high = tile.getNorth() - tile.getSouth();
  const sides = [(tile.getNorth() - kept.getNorth()) / high, (tile.getEast() - kept.getEast()) / wide,
    (kept.getSouth() - tile.getSouth()) / high, (kept.getWest() - tile.getWest()) / wide];
  return `inset(${sides.map(it => `${Math.min(100, Math.max(0, it * 100))}%`).join(" ")})`;
}

/** Says that no tile is to be seen, once all that were asked for are there, and the package answers. */
function tellMissing() {
  if (tiles?.isLoading()) return;
  const isSeen = !tiles || Object.values(tiles._tiles).some(({ current, el }) => current && el.src);
  byId("none").hidden = isSeen || isAway() || hasGround();  // else the reason stands above
}

/** Shows bounds as a whole, as large as a zoom of the pyramid allows. */
function fitTo(bounds) {
  const size = map.getSize(), wide = bounds.getEast() - bounds.getWest(), high = bounds.getNorth() - bounds.getSouth();
  pointed = null;
  const zoom = Math.floor(zoomOf(shown, Math.max(wide / size.x, high / size.y)) + 1e-9);
  map.setView(bounds.getCenter(), Math.min(zoom, shown.last), { animate: false });
}

const fit = () => fitTo(shown.kept);

/** The place in the list of matrices whose tiles a zoom shows. */
const placeOf = zoom => Math.min(Math.max(Math.round(zoom), 0), shown.last);

/** Shows all tiles, where those of the zoom that this takes are some; else a tile at the next zoom that has some. */
function begin() {
  const all = shown.tiles.filter(it => it).map(it => it.all);
  if (all.length === 0) return fit();
  const around = all.reduce((sum, it) => sum.extend(it), L.latLngBounds(all[0].getSouthWest(), all[0].getNorthEast()));
  fitTo(around.contains(shown.kept) ? shown.kept : around);
  if (!shown.tiles[placeOf(map.getZoom())]) toTiles();
}

/**
 * Shows the tiles of the zoom that is shown, or of the nearest that has some: all of them where they have their place.
 */
function toTiles() {
  const zoom = map.getZoom(), from = placeOf(zoom);
  const far = ({ at }) => Math.abs(at - from);
  const some = shown.tiles.map((it, at) => ({ it, at })).filter(({ it }) => it);
  const [found] = some.sort((one, other) => far(one) - far(other));
  if (!found) return;
  const { it: { all, near }, at } = found, target = at === from ? zoom : at;
  const metres = metresAt(shown, target), size = map.getSize();
  const fits = all.getEast() - all.getWest() <= size.x * metres && all.getNorth() - all.getSouth() <= size.y * metres;
  pointed = null;
  map.setView(fits ? all.getCenter() : near, target, { animate: false });
}

/** Goes to an easting and a northing that were typed, with what may stand around them. */
function goTo(text) {
  const told = placeTold(text), place = told && L.latLng(told[1], told[0]);
  byId("gone").textContent = !place ? phrase("Two numbers are asked for: easting, then northing.")
    : shown.bounds.contains(place) ? "" : phrase("This place is outside the map.");
  if (place) centreOn(place);
}

/** Has the map's middle at a place. */
function centreOn(place) {
  pointed = null;
  map.setView(place, map.getZoom(), { animate: false });
}

/** Tells where the pointer or a finger is; the centre where it is over a button, and behind keys. */
function point(event) {
  pointed = event?.target.closest(".leaflet-control") === null ? map.mouseEventToContainerPoint(event) : null;
  if (pointed) pointed.by = event.pointerType === "touch" ? phrase("finger") : phrase("pointer");
  tell();
}

/** How many decimals of a metre a pixel of the map is worth. */
const digitsHere = () => Math.min(Math.max(Math.ceil(1 - Math.log10(metresAt(shown, map.getZoom()))), 0), 6);

/** Tells the place of the pointer or the centre as easting and northing, and the zoom. */
function tell() {
  const place = pointed ? map.containerPointToLatLng(pointed) : map.getCenter(), digits = digitsHere();
  const { zoom_level, pixel_x_size, pixel_y_size } = matrixOf(shown, map.getZoom());
  const sides = [...new Set([pixel_x_size, pixel_y_size])].map(it => it / MICROMETRES);
  const larger = Math.min(pixel_x_size, pixel_y_size) / MICROMETRES / metresAt(shown, map.getZoom());
  const side = sides.length > 1 ? phrase("{0} by {1}", ...sides) : sides[0];
  const scale = larger > 1.5 ? phrase("zoom {0}, {1} m a pixel, {2} times larger", zoom_level, side, Math.round(larger))
    : larger < 0.7 ? phrase("zoom {0}, {1} m a pixel, {2} times smaller", zoom_level, side, Math.round(1 / larger))
    : phrase("zoom {0}, {1} m a pixel", zoom_level, side);
  byId("map").classList.toggle("centre", !pointed);
  const [east, north] = [`E ${place.lng.toFixed(digits)} m,`, `N ${place.lat.toFixed(digits)} m`];
  const by = element("small", `(${pointed ? pointed.by : phrase("centre")})`);
  const [at, high] = [east, north].map(it => element("span", it));
  byId("position").replaceChildren(at, " ", high, " ", by, element("br", ""), element("small", scale));
}
