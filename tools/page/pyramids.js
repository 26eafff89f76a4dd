// A pyramid of the package: its zooms, where its tiles are, and how Leaflet draws by it.

// How many zooms before the first, and behind the last, show its tiles, made smaller or larger.
const BESIDE = 2;

/** A pyramid with its lengths in metres, null where none of the known matrices makes its extent. */
function pyramidOf({ table, identifier, srs_id, extent: micrometres }, known) {
  const [minX, minY, maxX, maxY] = micrometres;
  const matrices = (known?.matrices ?? []).filter(it =>
    it.matrix_width * it.tile_width * it.pixel_x_size === maxX - minX
    && it.matrix_height * it.tile_height * it.pixel_y_size === maxY - minY);
  if (matrices.length === 0) return null;
  const extent = micrometres.map(it => it / MICROMETRES);
  // A pixel of the map is the shorter side of a tile's pixel. The longer side is drawn longer, so that the map keeps
  // its shape.
  const sides = matrices.map(it => Math.min(it.pixel_x_size, it.pixel_y_size) / MICROMETRES);
  const pyramid = { table, identifier, srs_id, extent, matrices, sides, last: matrices.length - 1 };
  pyramid.bounds = boundsOf(extent);
  pyramid.kept = boundsOf((known.bounds ?? micrometres).map(it => it / MICROMETRES));
  pyramid.tiles = matrices.map(it => placesOf(extent, it, known.tiles?.[it.zoom_level]));
  const side = Math.max(extent[2] - extent[0], extent[3] - extent[1]);
  pyramid.least = Math.min(0, Math.floor(zoomOf(pyramid, side / 128)));
  return pyramid;
}

const boundsOf = ([minX, minY, maxX, maxY]) => L.latLngBounds([minY, minX], [maxY, maxX]);

/**
 * Where the tiles of a matrix were when the viewer was made: around all of them, and one near their middle; null where
 * there was none.
 */
function placesOf([minX, , , maxY], it, found) {
  if (!found) return null;
  const wide = it.tile_width * it.pixel_x_size / MICROMETRES, high = it.tile_height * it.pixel_y_size / MICROMETRES;
  const around = (left, upper, right, lower) =>
    boundsOf([minX + left * wide, maxY - (lower + 1) * high, minX + (right + 1) * wide, maxY - upper * high]);
  return { all: around(...found.slice(0, 4)), near: around(...found.slice(4), ...found.slice(4)).getCenter() };
}

/**
 * The side of a pixel of the map in metres. A zoom is the place in the list of matrices; between two, and outside, it
 * has parts.
 */
function metresAt({ sides, last }, zoom) {
  const low = Math.min(Math.max(Math.floor(zoom), 0), last);
  const factor = zoom > 0 && low < last ? sides[low] / sides[low + 1] : 2;
  return sides[low] / factor ** (zoom - low);
}

/** The zoom at which a pixel of the map has a side of so many metres. */
function zoomOf({ sides, last }, metres) {
  const low = Math.max(0, sides.filter(it => it >= metres).length - 1);
  const factor = metres < sides[0] && low < last ? sides[low] / sides[low + 1] : 2;
  return low + Math.log(sides[low] / metres) / Math.log(factor);
}

/** The matrix whose tiles a zoom shows. */
const matrixOf = ({ matrices, last }, zoom) => matrices[Math.min(Math.max(Math.round(zoom), 0), last)];

/**
 * The reference that Leaflet draws a pyramid by: metres, northing as latitude, and pixels from the upper left corner of
 * the extent.
 */
function referenceOf(pyramid) {
  const [minX, minY, maxX, maxY] = pyramid.extent;
  return L.extend({}, L.CRS.Simple, {
    transformation: L.transformation(1, -minX, -1, maxY),
    scale: zoom => 1 / metresAt(pyramid, zoom),
    zoom: scale => zoomOf(pyramid, 1 / scale),
    // The bounds keep Leaflet from asking for tiles outside the matrix. Half a pixel less, so that no rounding adds a
    // column or a row.
    infinite: false,
    getProjectedBounds: zoom =>
      L.bounds([0, 0], [maxX - minX, maxY - minY].map(it => it / metresAt(pyramid, zoom) - 0.5)),
  });
}
