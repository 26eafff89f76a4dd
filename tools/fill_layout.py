"""The layout of a map that fills a package: its zooms, its records, which tiles it has and in which order."""

import dataclasses
import math
import zlib

from border import (
    BOUNDS_IDENTIFIER,
    BOUNDS_TABLE,
    COORDINATE_LIMIT,
    MATRIX_LIMIT,
    PIXEL_SIZE_LIMIT,
    UNITS_PER_METRE,
    ZOOM_LIMIT,
    Refused,
    is_whole,
)

SIDE = 256
# A map is a photo where JPEG wants less than this part of what PNG wants.
PHOTO = 0.5


@dataclasses.dataclass(frozen=True)
class Grid:
    """The finest pixels of a map: the upper left corner and the size of a pixel in units, and how many there are."""

    left: int
    top: int
    pixel_x: int
    pixel_y: int
    width: int
    height: int

    def bounds(self):
        """West, south, east and north in units."""
        south, east = self.top - self.height * self.pixel_y, self.left + self.width * self.pixel_x
        return [self.left, south, east, self.top]


def grid_over(bounds, pixel):
    """The grid over bounds in metres, of square pixels of a size in units, whose corner is a whole number of these."""
    west, south, east, north = (it * UNITS_PER_METRE / pixel for it in bounds)
    left, top = math.floor(west), math.ceil(north)
    return Grid(left * pixel, top * pixel, pixel, pixel, math.ceil(east) - left, top - math.floor(south))


@dataclasses.dataclass(frozen=True)
class Layout:
    """A pyramid whose first zoom has one tile, and whose last has the grid's pixels."""

    grid: Grid

    @property
    def last(self):
        """The last zoom."""
        return max(0, math.ceil(math.log2(max(self.grid.width, self.grid.height) / SIDE)))

    def extent(self):
        side = SIDE << self.last
        left, top = self.grid.left, self.grid.top
        return [left, top - side * self.grid.pixel_y, left + side * self.grid.pixel_x, top]

    def expect_within_limits(self):
        """Refuses where a package has no place for such a pyramid."""
        if self.last > ZOOM_LIMIT or 1 << self.last > MATRIX_LIMIT:
            raise Refused("the map has too many pixels: a pyramid has 31 zooms at most")
        if not all(is_whole(it << self.last, 1, PIXEL_SIZE_LIMIT) for it in (self.grid.pixel_x, self.grid.pixel_y)):
            raise Refused("the map's pixels are outside the limits of a package, 0.000001 m to 1000 km")
        if not all(is_whole(it, -COORDINATE_LIMIT, COORDINATE_LIMIT) for it in self.extent()):
            raise Refused("the map's place is outside the limits of a package, 100,000 km from the system's origin")

    def records(self, table, identifier, system):
        """The records of the pyramid, its zooms and its bounds."""
        yield ["pyramid", table, identifier, system, *self.extent(), "two"]
        for zoom in range(self.last + 1):
            less = self.last - zoom
            sizes = (1 << zoom, 1 << zoom, SIDE, SIDE, self.grid.pixel_x << less, self.grid.pixel_y << less)
            yield ["matrix", table, zoom, *sizes]
        if self.grid.bounds() != self.extent():
            yield ["table", BOUNDS_TABLE, "attributes", BOUNDS_IDENTIFIER]

    def bounds_record(self, table):
        """The row that keeps the map's bounds, None where its tiles reach no further."""
        if self.grid.bounds() == self.extent():
            return None
        return ["row", BOUNDS_TABLE, zlib.crc32(table.encode()) + 1, table, " ".join(map(str, self.grid.bounds())), 0]

    def has(self, zoom, column, row):
        """Whether a tile has a part of the map."""
        side = SIDE << (self.last - zoom)
        return column * side < self.grid.width and row * side < self.grid.height

    def count(self):
        """How many tiles have a part of the map, at all zooms."""
        sides = (SIDE << less for less in range(self.last + 1))
        return sum(math.ceil(self.grid.width / it) * math.ceil(self.grid.height / it) for it in sides)

    def below(self, zoom, column, row):
        """The tiles of the next zoom that a tile is made of: upper left, upper right, lower left, lower right."""
        return [(zoom + 1, 2 * column + right, 2 * row + low) for low in (0, 1) for right in (0, 1)]

    def samples(self, across=5):
        """Tiles of the last zoom that lie evenly over the map."""
        wide, high = (math.ceil(it / SIDE) for it in (self.grid.width, self.grid.height))
        places = {(at * 2 + 1) * wide // (2 * across) for at in range(across)}
        return sorted(
            (self.last, column, (at * 2 + 1) * high // (2 * across)) for column in places for at in range(across)
        )


def is_photo(sizes):
    """Whether a map is a photo, by how many bytes tiles of it are as PNG and as JPEG."""
    png, jpeg = (sum(it) for it in zip(*sizes)) if sizes else (0, 0)
    return jpeg < PHOTO * png
