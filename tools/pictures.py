"""Maps as GDAL draws them: what a map is, parts of it as pixels, and tiles as PNG and JPEG. Wants GDAL's modules."""

import sys
import threading

import numpy
from osgeo import gdal, osr

import fill_layout
import tile_folders
import zones
from border import UNITS_PER_METRE, Refused, whole_units

gdal.UseExceptions()
osr.UseExceptions()
gdal.PushErrorHandler("CPLQuietErrorHandler")
gdal.SetConfigOption("GDAL_CACHEMAX", "128")
gdal.SetConfigOption("GDAL_PAM_ENABLED", "NO")

QUALITY = 85
# Colours of a tile that become a palette.
PALETTE = 256
BILINEAR, EXACT = "bilinear", "near"


def opened(source):
    """What GDAL opens of a file, a name of a GDAL's, or a folder of tiles; only where it is a picture."""
    text = str(source)
    try:
        if source.is_dir():
            told, part = tile_folders.described(source)
            if not (source / tile_folders.TMS).exists():
                print(f"note: {source}: taken for tiles of Web Mercator, rows from above", file=sys.stderr)
            return gdal.Translate("", gdal.Open(told), format="VRT", srcWin=part)
        found = gdal.OpenEx(text, gdal.OF_RASTER | gdal.OF_READONLY)
    except RuntimeError as error:
        raise Refused(f"{source}: GDAL opens no map of it: {error}") from error
    if found.RasterCount == 0:
        names = [it for it, _ in found.GetSubDatasets()]
        raise Refused(f"{source}: has {'several maps; name one: ' + ', '.join(names) if names else 'no map'}")
    return found


def plain(source, dataset):
    """A map as red, green and blue of 8 bits, with what is clear as a fourth band or by its own mask."""
    bands = [dataset.GetRasterBand(it + 1) for it in range(dataset.RasterCount)]
    if bands[0].DataType != gdal.GDT_Byte:
        sort = gdal.GetDataTypeName(bands[0].DataType)
        raise Refused(
            f"{source}: its pixels are {sort}, and a map's are of 8 bits: gdal_translate -ot Byte -scale makes one of "
            "a picture, gdaldem hillshade of heights"
        )
    kinds = [it.GetColorInterpretation() for it in bands]
    if kinds[0] == gdal.GCI_PaletteIndex and bands[0].GetColorTable():
        return coloured(dataset)
    alpha = kinds.index(gdal.GCI_AlphaBand) + 1 if gdal.GCI_AlphaBand in kinds else None
    colours = [1, 2, 3] if len(bands) >= 3 and alpha not in (2, 3) else [1, 1, 1]
    made = gdal.Translate("", dataset, format="VRT", bandList=colours + ([alpha] if alpha else []))
    for number, kind in enumerate((gdal.GCI_RedBand, gdal.GCI_GreenBand, gdal.GCI_BlueBand, gdal.GCI_AlphaBand)):
        if number < made.RasterCount:
            made.GetRasterBand(number + 1).SetColorInterpretation(kind)
    return made


def coloured(dataset):
    """A map with a palette in its colours, clear where its value is the one that means nothing."""
    copy = gdal.Translate("", dataset, format="VRT", bandList=[1])
    band = copy.GetRasterBand(1)
    table, nothing = band.GetColorTable().Clone(), band.GetNoDataValue()
    if nothing is not None and 0 <= nothing < table.GetCount():
        table.SetColorEntry(int(nothing), (*table.GetColorEntry(int(nothing))[:3], 0))
        band.DeleteNoDataValue()
        band.SetColorTable(table)
    # The expanded one reads of the copy, and GDAL keeps that as long as it is named.
    made = gdal.Translate("", copy, format="VRT", rgbExpand="rgba")
    made.copy = copy
    return made


def system_of(number):
    made = osr.SpatialReference()
    try:
        made.ImportFromEPSG(number)
    except RuntimeError as error:
        raise Refused(f"--system: EPSG has no system {number}") from error
    made.SetAxisMappingStrategy(osr.OAMS_TRADITIONAL_GIS_ORDER)
    return made


def is_metric(system):
    """Whether lengths in a system are metres of the ground: it is of a plane, in metres, and no Mercator."""
    projection = system.GetAttrValue("PROJECTION") or ""
    return bool(system.IsProjected()) and system.GetLinearUnits() == 1.0 and not projection.startswith("Mercator")


def number_of(system):
    """A system's number at EPSG, None where it has none."""
    if system.GetAuthorityName(None) != "EPSG":
        found = [it for it, sure in system.FindMatches() if sure >= 90 and it.GetAuthorityName(None) == "EPSG"]
        system = found[0] if found else system
    told = system.GetAuthorityCode(None)
    return int(told) if told and told.isdigit() and system.GetAuthorityName(None) == "EPSG" else None


def degrees_of(dataset, system):
    """West, south, east and north of a map in degrees."""
    wide, high = dataset.RasterXSize, dataset.RasterYSize
    place = dataset.GetGeoTransform()
    corners = [gdal.ApplyGeoTransform(place, across, down) for across in (0, wide) for down in (0, high)]
    east, north = zip(*corners)
    transform = osr.CoordinateTransformation(system, system_of(4326))
    return transform.TransformBounds(min(east), min(north), max(east), max(north), 21)


class Picture:
    """A map in the system of its pyramid: its grid, and parts of it as arrays of red, green, blue and how opaque."""

    def __init__(self, source, number=None):
        self.source = source
        self.dataset = plain(source, opened(source))
        self.own = self.dataset.GetSpatialRef()
        self.placed = self.dataset.GetGeoTransform(can_return_null=True) is not None
        if not self.placed and self.dataset.GetGCPCount() == 0:
            raise Refused(f"{source}: tells no place: gdal_translate -a_srs and -a_ullr give it one")
        self.own = self.own or self.dataset.GetGCPSpatialRef()
        if self.own is None and number is None:
            raise Refused(f"{source}: tells no system: --system names its number at EPSG")
        self.own = self.own or system_of(number)
        self.own.SetAxisMappingStrategy(osr.OAMS_TRADITIONAL_GIS_ORDER)
        self.number = number or self.fitting()
        self.system = system_of(self.number)
        if not is_metric(self.system):
            raise Refused(f"EPSG:{self.number} is no system in metres: --system names another")
        self.grid, self.how = self.found_grid()

    def fitting(self):
        """The number of the map's own system where that is in metres, else of one that suits its place."""
        if is_metric(self.own):
            number = number_of(self.own)
            if number is None:
                raise Refused(f"{self.source}: EPSG has no number for its system: --system names one it goes into")
            return number
        try:
            number = zones.system_over(*degrees_of(self.dataset, self.own)) if self.placed else None
        except RuntimeError:
            number = None
        if number is None:
            raise Refused(
                f"{self.source}: no zone of UTM suits its place, or it is wider than {zones.MOST_DEGREES} degrees: "
                "--system names a system in metres, as 3035 for Europe"
            )
        return number

    def found_grid(self):
        """The grid of the pyramid, and how pixels come into it: as they are where they lie on it."""
        left, across, skew, top, tilt, down = self.dataset.GetGeoTransform()
        pixel = [whole_units(across), whole_units(-down)]
        same = self.placed and self.own.IsSame(self.system) and (skew, tilt) == (0, 0) and across > 0 > down
        if same and all(it and it > 0 for it in pixel):
            corner = [round(it * UNITS_PER_METRE) for it in (left, top)]
            size = self.dataset.RasterXSize, self.dataset.RasterYSize
            return fill_layout.Grid(*corner, *pixel, *size), EXACT
        around = self.warped(format="VRT")
        left, across, _, top, _, _ = around.GetGeoTransform()
        bounds = [left, top - across * around.RasterYSize, left + across * around.RasterXSize, top]
        return fill_layout.grid_over(bounds, max(1, round(across * UNITS_PER_METRE))), BILINEAR

    def warped(self, **words):
        """The map as GDAL draws it in the system of its pyramid."""
        own = self.own.ExportToWkt(["FORMAT=WKT2_2018"])
        return gdal.Warp("", self.dataset, srcSRS=own, dstSRS=f"EPSG:{self.number}", dstAlpha=True, **words)

    def definition(self):
        """The texts of its system, as a record has them: number, name, organization, its number there, WKT, none."""
        wkt = self.system.ExportToWkt(["FORMAT=WKT1_GDAL"])
        return [self.number, self.system.GetName(), "EPSG", self.number, wkt, ""]

    def read(self, across, down, width, height):
        """A part of the grid as height x width x 4 values; what is outside is clear."""
        left, top = self.grid.left + across * self.grid.pixel_x, self.grid.top - down * self.grid.pixel_y
        bounds = [left, top - height * self.grid.pixel_y, left + width * self.grid.pixel_x, top]
        try:
            bounds = [it / UNITS_PER_METRE for it in bounds]
            drawn = self.warped(format="MEM", outputBounds=bounds, width=width, height=height, resampleAlg=self.how)
            pixels = numpy.moveaxis(drawn.ReadAsArray(), 0, 2)
        except RuntimeError as error:
            raise Refused(f"{self.source}: GDAL can't read it: {error}") from error
        return numpy.where(pixels[:, :, 3:] == 0, 0, pixels).astype(numpy.uint8)


def halved(pixels):
    """Pixels of half the size: each of four, weighed by how opaque they are."""
    if is_opaque(pixels):
        return ((sum(quarters(pixels, numpy.uint16)) + 2) // 4).astype(numpy.uint8)
    four = quarters(pixels, numpy.uint32)
    whole = sum(it[:, :, 3:] for it in four)
    colours = (sum(it[:, :, :3] * it[:, :, 3:] for it in four) + whole // 2) // numpy.maximum(whole, 1)
    return numpy.concatenate([colours, (whole + 2) // 4], axis=2).astype(numpy.uint8)


def quarters(pixels, sort):
    """Of each four pixels the upper left, the upper right, the lower left and the lower right ones."""
    return [pixels[down::2, across::2].astype(sort) for down in (0, 1) for across in (0, 1)]


def is_clear(pixels):
    return not pixels[:, :, 3].any()


def is_opaque(pixels):
    return bool((pixels[:, :, 3] == 255).all())


def png(pixels):
    """A PNG: with a palette where there are few colours, and without a band of how opaque where all is."""
    whole = numpy.ascontiguousarray(pixels).view(numpy.uint32)[:, :, 0]
    colours, places = numpy.unique(whole, return_inverse=True)
    if len(colours) <= PALETTE:
        return encoded("PNG", places.reshape(whole.shape).astype(numpy.uint8)[:, :, None], ["ZLEVEL=6"], colours)
    return encoded("PNG", pixels[:, :, :3] if is_opaque(pixels) else pixels, ["ZLEVEL=6"])


def jpeg(pixels):
    return encoded("JPEG", pixels[:, :, :3], [f"QUALITY={QUALITY}"])


def encoded(driver, pixels, options, colours=None):
    """The bytes of a picture in a format of GDAL's."""
    high, wide, bands = pixels.shape
    memory = gdal.GetDriverByName("MEM").Create("", wide, high, bands, gdal.GDT_Byte)
    for number in range(bands):
        memory.GetRasterBand(number + 1).WriteArray(numpy.ascontiguousarray(pixels[:, :, number]))
    if colours is not None:
        table = gdal.ColorTable()
        for number, colour in enumerate(colours.view(numpy.uint8).reshape(-1, 4).tolist()):
            table.SetColorEntry(number, tuple(colour))
        memory.GetRasterBand(1).SetColorTable(table)
    elif bands == 4:
        memory.GetRasterBand(4).SetColorInterpretation(gdal.GCI_AlphaBand)
    name = f"/vsimem/tile-{threading.get_ident()}"
    gdal.GetDriverByName(driver).CreateCopy(name, memory, options=options)
    return taken(name)


def taken(name):
    """The bytes of a file of GDAL's memory, which goes."""
    file = gdal.VSIFOpenL(name, "rb")
    data = bytes(gdal.VSIFReadL(1, gdal.VSIStatL(name).size, file))
    gdal.VSIFCloseL(file)
    gdal.Unlink(name)
    return data


def decoded(data):
    """The pixels of a tile, as they were encoded."""
    name = f"/vsimem/read-{threading.get_ident()}"
    gdal.FileFromMemBuffer(name, data)
    try:
        dataset = gdal.Open(name)
        bands = dataset.ReadAsArray().reshape(dataset.RasterCount, dataset.RasterYSize, dataset.RasterXSize)
        table = dataset.GetRasterBand(1).GetColorTable()
        # The table is the dataset's, and goes with it.
        entries = [table.GetColorEntry(it) for it in range(table.GetCount())] if table else []
    finally:
        table = dataset = None
        gdal.Unlink(name)
    if entries:
        return numpy.array(entries, dtype=numpy.uint8)[bands[0]]
    pixels = numpy.full((*bands.shape[1:], 4), 255, dtype=numpy.uint8)
    pixels[:, :, : len(bands)] = numpy.moveaxis(bands, 0, 2)
    return pixels


def joined(parts):
    """The pixels of a tile that is made of four, upper left, upper right, lower left and lower right; None is clear."""
    side = next(it.shape[0] for it in parts if it is not None)
    whole = numpy.zeros((2 * side, 2 * side, 4), dtype=numpy.uint8)
    for number, part in enumerate(parts):
        if part is not None:
            down, across = number // 2 * side, number % 2 * side
            whole[down : down + side, across : across + side] = part
    return halved(whole)
