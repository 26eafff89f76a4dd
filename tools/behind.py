"""Maps that lie beside a package, as GDAL draws them: parts of pictures, and shapes. Wants GDAL's modules."""

import json
import math
import os
import pathlib
import threading

import numpy
from osgeo import gdal, ogr, osr

import pictures
import systems
import zones

ogr.UseExceptions()

SIDE = 256
# How many pixels of a source a part may want: beyond that the map is too large to be shown from so far out.
MOST_PIXELS = 40_000_000
# How many shapes, and how many points of them, one answer has.
MOST_SHAPES, MOST_POINTS = 3_000, 60_000
PNG = ["ZLEVEL=1"]


class Cannot(Exception):
    """What can't be opened or drawn, in words."""


def system_of(number):
    made = osr.SpatialReference()
    made.ImportFromEPSG(number)
    made.SetAxisMappingStrategy(osr.OAMS_TRADITIONAL_GIS_ORDER)
    return made


def suiting(own, box):
    """The number of a system in metres that suits a map's box in its own, and its parameters; None where none does."""
    number = pictures.number_of(own) if pictures.is_metric(own) else None
    if number is None:
        there = osr.CoordinateTransformation(plain_order(own), system_of(4326))
        west, south, east, north = there.TransformBounds(*box, 21)
        number = zones.system_at((west + east) / 2, (south + north) / 2)
    return number and (number, systems.transverse_mercator(system_of(number).ExportToWkt()))


def opened(path):
    """What GDAL opens of a file to be read; nothing is made beside it."""
    kinds = gdal.OF_RASTER | gdal.OF_VECTOR | gdal.OF_READONLY
    options = ["IMMUTABLE=YES"] if is_database(path) and not os.path.exists(f"{path}-wal") else []
    try:
        found = gdal.OpenEx(str(path), kinds, open_options=options)
    except RuntimeError as error:
        raise Cannot(f"GDAL opens no map of it: {error}") from error
    if found.RasterCount == 0 and found.GetLayerCount() == 0:
        names = [name for name, _ in found.GetSubDatasets()]
        raise Cannot(f"it has several maps; name one: {', '.join(names)}" if names else "it has no map")
    return found


def is_database(path):
    return pathlib.Path(path).suffix.lower() == ".gpkg"


def kept_by(thread, key, make):
    """What a thread keeps of its own, made where it is missing: GDAL's datasets belong to a thread each."""
    kept = thread.__dict__.setdefault("kept", {})
    if key not in kept:
        kept[key] = make()
    return kept[key]


class Picture:
    """A map that GDAL draws."""

    kind = "picture"

    def __init__(self, path, dataset):
        self.path, self.here = path, threading.local()
        self.stamp = stamp_of(path)
        if dataset.GetGeoTransform(can_return_null=True) is None and dataset.GetGCPCount() == 0:
            raise Cannot("it tells no place")
        own = dataset.GetSpatialRef() or dataset.GetGCPSpatialRef()
        if own is None:
            raise Cannot("it tells no system")
        if dataset.GetRasterBand(1).DataType != gdal.GDT_Byte:
            raise Cannot(f"its pixels are {gdal.GetDataTypeName(dataset.GetRasterBand(1).DataType)}, and not of 8 bits")
        self.own = own.ExportToWkt()
        self.box = box_of(dataset)
        least = dataset.GetRasterBand(1)
        counts = [least.GetOverview(it).XSize for it in range(least.GetOverviewCount())]
        # How many pixels one of the smallest overview stands for, each way.
        self.shrunk = dataset.RasterXSize / min(counts, default=dataset.RasterXSize)

    def suiting(self):
        return self.box and suiting(osr.SpatialReference(self.own), self.box)

    def told(self, system):
        """Where the map is in a system, and between which sizes of a pixel it is drawn."""

        def warped():
            around = gdal.AutoCreateWarpedVRT(self.source(), self.own, system_of(system).ExportToWkt())
            left, across, _, top, _, down = around.GetGeoTransform()
            return [left, top + down * around.RasterYSize, left + across * around.RasterXSize, top], across

        bounds, pixel = kept_by(self.here, ("told", system), warped)
        return {"bounds": bounds, "finest": pixel, "coarsest": pixel * self.shrunk * math.sqrt(MOST_PIXELS) / SIDE}

    def source(self):
        return kept_by(self.here, "source", lambda: pictures.plain(self.path, opened(self.path)))

    def part(self, system, west, north, pixel):
        """A PNG of 256 x 256 pixels from a corner on, None where the map has nothing there."""
        told = self.told(system)
        box = [west, north - SIDE * pixel, west + SIDE * pixel, north]
        if not overlaps(box, told["bounds"]) or pixel > told["coarsest"]:
            return None
        drawn = gdal.Warp(
            "", self.source(), format="MEM", srcSRS=self.own, dstSRS=system_of(system).ExportToWkt(), outputBounds=box,
            width=SIDE, height=SIDE, resampleAlg="bilinear", dstAlpha=True,
        )  # fmt: skip
        pixels = numpy.moveaxis(drawn.ReadAsArray(), 0, 2)
        if pictures.is_clear(pixels):
            return None
        return pictures.encoded("PNG", pixels[:, :, :3] if pictures.is_opaque(pixels) else pixels, PNG)


def box_of(dataset):
    """A picture's box in its own system; None where points alone place it."""
    place = dataset.GetGeoTransform(can_return_null=True)
    if place is None:
        return None
    wide, high = dataset.RasterXSize, dataset.RasterYSize
    corners = [gdal.ApplyGeoTransform(place, across, down) for across in (0, wide) for down in (0, high)]
    east, north = zip(*corners)
    return [min(east), min(north), max(east), max(north)]


class Shapes:
    """Points, lines and areas."""

    kind = "shapes"

    def __init__(self, path, dataset):
        self.path, self.here = path, threading.local()
        self.stamp = stamp_of(path)
        layers = [dataset.GetLayer(it) for it in range(dataset.GetLayerCount())]
        self.layers = [it.GetName() for it in layers if it.GetGeomType() != ogr.wkbNone]
        if not self.layers:
            raise Cannot("it has no shapes")
        if any(dataset.GetLayerByName(it).GetSpatialRef() is None for it in self.layers):
            raise Cannot("it tells no system")
        first = dataset.GetLayerByName(self.layers[0]).GetLayerDefn()
        self.columns = [first.GetFieldDefn(it).GetName() for it in range(first.GetFieldCount())]

    def suiting(self):
        layer = self.source().GetLayerByName(self.layers[0])
        if layer.GetFeatureCount() == 0:
            return None
        west, east, south, north = layer.GetExtent()
        return suiting(layer.GetSpatialRef(), [west, south, east, north])

    def told(self, system):
        """Where the shapes are in a system, and the columns that may name them."""

        def boxes():
            return [it for it in (self.box_of(name, system) for name in self.layers) if it]

        found = kept_by(self.here, ("told", system), boxes)
        bounds = [side(it[at] for it in found) for at, side in enumerate((min, min, max, max))] if found else None
        return {"bounds": bounds, "columns": self.columns}

    def box_of(self, name, system):
        layer = self.source().GetLayerByName(name)
        if layer.GetFeatureCount() == 0:
            return None
        west, east, south, north = layer.GetExtent()
        there = osr.CoordinateTransformation(plain_order(layer.GetSpatialRef()), system_of(system))
        return list(there.TransformBounds(west, south, east, north, 21))

    def source(self):
        return kept_by(self.here, "source", lambda: opened(self.path))

    def within(self, system, box, pixel, column=None):
        """The shapes of a box as GeoJSON in a system, thinned to a pixel, and whether there are more."""
        shapes, points, more = [], 0, False
        for name in self.layers:
            for shape in self.shapes_of(name, system, box, pixel, column):
                points += count_of(shape["geometry"])
                more = len(shapes) >= MOST_SHAPES or points > MOST_POINTS
                if more:
                    break
                shapes.append(shape)
        return {"type": "FeatureCollection", "more": more, "features": shapes}

    def shapes_of(self, name, system, box, pixel, column):
        """Yields the shapes of a layer that meet a box and are larger than a pixel."""
        layer = self.source().GetLayerByName(name)
        own, wanted = plain_order(layer.GetSpatialRef()), system_of(system)
        back = osr.CoordinateTransformation(wanted, own).TransformBounds(*box, 21)
        there = osr.CoordinateTransformation(own, wanted)
        layer.SetSpatialFilterRect(*back)
        layer.ResetReading()
        for feature in layer:
            shape = feature.GetGeometryRef()
            if shape is None or shape.IsEmpty():
                continue
            shape = shape.Clone()
            shape.FlattenTo2D()
            shape.Transform(there)
            west, east, south, north = shape.GetEnvelope()
            if shape.GetDimension() and max(east - west, north - south) < pixel:
                continue
            thin = shape.SimplifyPreserveTopology(pixel / 2) if shape.GetDimension() else shape
            told = thin.ExportToJson(["COORDINATE_PRECISION=3"])
            index = feature.GetFieldIndex(column) if column else -1
            name_of = feature.GetFieldAsString(index) if index >= 0 else ""
            yield {"type": "Feature", "properties": {"name": name_of}, "geometry": json.loads(told)}


def plain_order(system):
    """A system whose places are told as easting and northing, or as longitude and latitude."""
    system = system.Clone()
    system.SetAxisMappingStrategy(osr.OAMS_TRADITIONAL_GIS_ORDER)
    return system


def count_of(geometry):
    """How many places a geometry of GeoJSON has."""
    if geometry is None:
        return 0
    below = [*geometry.get("geometries", ()), geometry.get("coordinates", ())]
    return sum(count_of(it) if isinstance(it, dict) else places_in(it) for it in below)


def places_in(coordinates):
    if not coordinates or not isinstance(coordinates[0], (list, tuple)):
        return 1 if coordinates else 0
    return sum(map(places_in, coordinates))


def overlaps(one, other):
    return one[0] < other[2] and one[2] > other[0] and one[1] < other[3] and one[3] > other[1]


def stamp_of(path):
    """What changes where a map's file is written: a map that isn't a file has none."""
    try:
        told = os.stat(path)
    except OSError:
        return ""
    return f"{told.st_mtime_ns:x}-{told.st_size:x}"


def map_of(path):
    """A map by its file, or why it is none."""
    dataset = opened(path)
    return Picture(path, dataset) if dataset.RasterCount else Shapes(path, dataset)
