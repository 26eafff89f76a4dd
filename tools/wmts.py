"""A WMTS description of a package's maps, by which GDAL and QGIS open the page of 'mmpkg serve'.

Each pyramid is a layer with a matrix set of its own name. docs/BORDER.md says what is left out, and how the programs
open it.
"""

import fractions
import re
from xml.sax.saxutils import escape, quoteattr

from border import UNITS_PER_METRE, Refused, bounds_of, image_suffix

# OGC's pixel, which a scale is told for, has a side of 0.28 mm.
PIXEL = fractions.Fraction(28, 100_000)
FORMATS = {".png": "image/png", ".jpg": "image/jpeg", ".webp": "image/webp"}
DIGITS = 17

DESCRIPTION = """<?xml version="1.0" encoding="UTF-8"?>
<Capabilities xmlns="http://www.opengis.net/wmts/1.0" xmlns:ows="http://www.opengis.net/ows/1.1"
 xmlns:xlink="http://www.w3.org/1999/xlink" version="1.0.0">
 <ows:ServiceIdentification><ows:Title>Map package</ows:Title><ows:ServiceType>OGC WMTS</ows:ServiceType>
  <ows:ServiceTypeVersion>1.0.0</ows:ServiceTypeVersion></ows:ServiceIdentification>
 <Contents>
{}{} </Contents>
 <ServiceMetadataURL xlink:href={}/>
</Capabilities>
"""
LAYER = """  <Layer>
   <ows:Title>{title}</ows:Title>
   <ows:BoundingBox crs="{system}">
    <ows:LowerCorner>{low}</ows:LowerCorner><ows:UpperCorner>{high}</ows:UpperCorner>
   </ows:BoundingBox>
   <ows:Identifier>{name}</ows:Identifier>
   <Style isDefault="true"><ows:Identifier>default</ows:Identifier></Style>
   <Format>{format}</Format>
   <TileMatrixSetLink><TileMatrixSet>{name}</TileMatrixSet></TileMatrixSetLink>
   <ResourceURL format="{format}" resourceType="tile"
    template="{page}/tiles/{name}/{{TileMatrix}}/{{TileCol}}/{{TileRow}}"/>
  </Layer>
"""
MATRIX_SET = """  <TileMatrixSet>
   <ows:Identifier>{name}</ows:Identifier>
   <ows:SupportedCRS>{system}</ows:SupportedCRS>
{matrices}  </TileMatrixSet>
"""
MATRIX = """   <TileMatrix>
    <ows:Identifier>{zoom}</ows:Identifier>
    <ScaleDenominator>{scale}</ScaleDenominator>
    <TopLeftCorner>{corner}</TopLeftCorner>
    <TileWidth>{tile_width}</TileWidth><TileHeight>{tile_height}</TileHeight>
    <MatrixWidth>{width}</MatrixWidth><MatrixHeight>{height}</MatrixHeight>
   </TileMatrix>
"""


def decimal(value):
    """A fraction of at least 0 or below, as a decimal without an exponent that tells a DOUBLE wholly."""
    sign, value = ("-", -value) if value < 0 else ("", value)
    places = max(DIGITS - len(str(int(value))), 12)
    scaled = round(value * 10**places)
    return f"{sign}{scaled // 10**places}.{scaled % 10**places:0{places}d}".rstrip("0").rstrip(".")


def is_northing_first(definition):
    """Whether a system's northing comes before its easting by the axes of its WKT; None where that names none."""
    plane = re.split(r"\bVERT(?:_CS|CRS|ICALCRS)\s*\[", definition)[0]
    axes = re.findall(r'AXIS\["([^"]*)",\s*([A-Za-z]+)', plane)[-2:]
    if len(axes) < 2:
        return None
    (name, way), (_, other) = axes
    # Around a pole both axes have one way, and their names tell which is which.
    return bool(re.match(r"\(?N", name, re.IGNORECASE)) if way == other else way.upper() in ("NORTH", "SOUTH")


class Map:
    """A pyramid of a package as WMTS tells it."""

    def __init__(self, opened, row):
        self.name, self.title, self.organization, self.number, self.definition, *self.extent = row
        self.matrices = opened.execute(
            "SELECT zoom_level, matrix_width, matrix_height, tile_width, tile_height, pixel_x_size, pixel_y_size "
            "FROM gpkg_tile_matrix WHERE table_name = ? ORDER BY zoom_level",
            (self.name,),
        ).fetchall()
        heads = opened.execute(
            "SELECT DISTINCT substr(data, 1, 12) FROM mm_tiles JOIN mm_blobs b ON b.id = blob WHERE table_name = ?",
            (self.name,),
        )
        self.formats = {FORMATS.get(image_suffix(head), "image/png") for (head,) in heads}
        self.northing_first = is_northing_first(self.definition)

    def why_not(self):
        """Why WMTS doesn't tell this map, None where it does."""
        if self.organization.upper() != "EPSG":
            return f"its system is {self.organization}:{self.number}, and WMTS names one of EPSG's"
        if not self.matrices:
            return "it has no matrix"
        if any(row[5] != row[6] for row in self.matrices):
            return "its pixels aren't square, and WMTS has one scale for both sides"
        return None

    def corner(self, x, y):
        """A place in metres, in the order of the system's axes."""
        metres = [decimal(fractions.Fraction(it, UNITS_PER_METRE)) for it in (x, y)]
        return " ".join(reversed(metres) if self.northing_first else metres)

    def system(self):
        return f"urn:ogc:def:crs:EPSG::{self.number}"

    def layer(self, page, bounds):
        """The layer.

        Tiles of several formats are told as PNG, the one that may be transparent, since programs look at the bytes.
        """
        left, low, right, high = bounds
        return LAYER.format(
            title=escape(self.title),
            name=self.name,
            system=self.system(),
            page=page,
            low=self.corner(left, low),
            high=self.corner(right, high),
            format=min(self.formats) if len(self.formats) == 1 else "image/png",
        )

    def matrix_set(self):
        matrices = "".join(
            MATRIX.format(
                zoom=zoom,
                width=width,
                height=height,
                tile_width=tile_width,
                tile_height=tile_height,
                scale=decimal(fractions.Fraction(pixel, UNITS_PER_METRE) / PIXEL),
                corner=self.corner(self.extent[0], self.extent[3]),
            )
            for zoom, width, height, tile_width, tile_height, pixel, _ in self.matrices
        )
        return MATRIX_SET.format(name=self.name, system=self.system(), matrices=matrices)


def maps_of(opened, report):
    """The maps of a package that WMTS tells; the others are named."""
    rows = opened.execute(
        "SELECT table_name, identifier, organization, organization_coordsys_id, definition, min_x, min_y, max_x, max_y "
        "FROM gpkg_contents JOIN gpkg_spatial_ref_sys USING (srs_id) WHERE data_type = 'tiles' ORDER BY table_name"
    ).fetchall()
    for row in rows:
        it = Map(opened, row)
        why = it.why_not()
        if why:
            report.left_out(f"map {it.name} of the WMTS description", why)
            continue
        if it.northing_first is None:
            report.note(
                f"map {it.name}",
                "its system's definition is no WKT with axes, so the WMTS description tells easting first",
            )
        yield it


def describe(opened, port, item, report):
    """The description of a package that is served at a port, where the item is the path of the description itself."""
    page = f"http://127.0.0.1:{port}"
    bounds, maps = bounds_of(opened), list(maps_of(opened, report))
    if not maps:
        raise Refused("the package has no map that WMTS tells; leave --wmts out")
    layers = "".join(it.layer(page, bounds.get(it.name, it.extent)) for it in maps)
    return DESCRIPTION.format(layers, "".join(it.matrix_set() for it in maps), quoteattr(page + item)).encode()
