// Pictures behind the work: the parts of them that are in sight, each asked for when it is, and no more when it isn't.

const stops = new WeakMap();  // by the image of a part, what ends its request

/** The layer of a picture: its parts in sight, each drawn when it is asked for. */
function partsLayer(it) {
  const pyramid = shown, pixelAt = ({ z }) => metresAt(pyramid, z);
  const Parts = L.GridLayer.extend({
    // Only where the picture has something, also outside the package's map.
    _isValidTile: place => hasPart(it.map, pixelAt(place), boxOfPart(pyramid.extent, pixelAt(place), place)),
    createTile(place, done) {
      const image = new Image(), stop = new AbortController();
      stops.set(image, stop);
      drawPart(it, image, partOf(pyramid, place), stop.signal)
        .then(() => stop.signal.aborted || done(null, image));
      return image;
    },
  });
  const zooms = { minZoom: pyramid.least, maxZoom: pyramid.last + BESIDE };
  const parts = new Parts({ tileSize: PART, pane: paneOf(it), updateWhenZooming: false, ...zooms });
  return parts.on("tileunload", ({ tile }) => stops.get(tile)?.abort());
}

/** A part as it is asked for: its system, the upper left corner of the grid, the pixel, and its place in the grid. */
const partOf = (pyramid, { x, y, z }) =>
  [rows.epsg[pyramid.srs_id], pyramid.extent[0], pyramid.extent[3], metresAt(pyramid, z), x, y].join("/");

/** Draws a part of a picture into its image; nothing where it has nothing there, or nobody wants it any more. */
async function drawPart(it, image, part, stop) {
  const { body, why } = await askMaps(`parts/${it.map.number}/${part}`, "blob", stop);
  if (stop.aborted) return;
  if (body) await drawn(image, body);
  sayOfMap(it, why);
}
