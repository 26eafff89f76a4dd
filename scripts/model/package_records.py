"""The limits, the sorts of fields, the records and the CSV lists of docs/FORMATS.md, from which alone this is
written."""

import re
from dataclasses import dataclass

# What the profile's unit decides: its version, and the limits of a coordinate and of a pixel size.
PROFILE_VERSION = 2
MOST_COORDINATE = 10**14
MOST_PIXEL_SIZE = 10**12

MOST_ZOOM = 30
MOST_MATRIX = 2**30
MOST_TILE_SIDE = 4096
MOST_TILE_BYTES = 1_048_576
MOST_MEDIA_BYTES = 4_194_304
MOST_NUMBER = 2**53
MOST_AMOUNT = 10**15
MOST_PIECES = 4096
MOST_KIT_BYTES = 16_777_216
MOST_MOMENT = 253_402_300_799_999
MOST_HEAD_BYTES = 8192
MOST_HEAD_LINES = 64

PYRAMIDS = ("two", "other")


class Refused(Exception):
    """A record or a command is refused, with a number."""

    def __init__(self, number):
        super().__init__(number)
        self.number = number


def require(holds, number):
    """Refuses with the number where something doesn't hold."""
    if not holds:
        raise Refused(number)


# Sections 1 and 4: the sorts of fields. Each reads the text of a field, or refuses it with 10, 11 or 12.


@dataclass(frozen=True)
class Number:
    """A whole number within limits."""

    least: int
    most: int

    def read(self, text):
        require(re.fullmatch("0|-?[1-9][0-9]*", text), 10)
        require(len(text) <= 20 and self.least <= int(text) <= self.most, 11)
        return int(text)


@dataclass(frozen=True)
class Text:
    """A text with limits to its length in bytes, and of its bytes: an identifier has no control bytes."""

    least: int
    most: int
    forbidden: str = "\0"

    def read(self, text):
        require(self.least <= len(text.encode()) <= self.most and not set(text) & set(self.forbidden), 11)
        return text


@dataclass(frozen=True)
class Hexadecimal:
    """Bytes in hexadecimal digits, from one byte."""

    most: int

    def read(self, text):
        require(re.fullmatch("[0-9A-Fa-f]*", text) and len(text) % 2 == 0, 10)
        require(1 <= len(text) // 2 <= self.most, 11)
        return bytes.fromhex(text)


@dataclass(frozen=True)
class Word:
    """One of some words."""

    words: tuple

    def read(self, text):
        require(text in self.words, 10)
        return text


@dataclass(frozen=True)
class Form:
    """A text of a form, and the number of any other."""

    form: str
    number: int

    def read(self, text):
        require(re.fullmatch(self.form, text), self.number)
        return text


NAME = Form("(?!gpkg|sqlite|mm_)[a-z_][a-z0-9_]{0,59}", 12)
IDENTIFIER = Text(1, 1000, "".join(map(chr, range(0x20))) + "\x7f")
CONTENT_TYPE = Form("{0}/{0}".format("[A-Za-z0-9!#$&^_.+-]{1,64}"), 11)
FILE_NAME = Form("[A-Za-z0-9_-][A-Za-z0-9_.-]{0,99}", 57)
ITEM = Number(1, MOST_NUMBER)
COORDINATE = Number(-MOST_COORDINATE, MOST_COORDINATE)
ZOOM = Number(0, MOST_ZOOM)
SIDE = Number(1, MOST_MATRIX)
PLACE = Number(0, MOST_MATRIX - 1)
TILE_SIDE = Number(1, MOST_TILE_SIDE)
PIXEL_SIZE = Number(1, MOST_PIXEL_SIZE)

PIECES = {
    "matrix": (NAME, ZOOM, SIDE, SIDE, TILE_SIDE, TILE_SIDE, PIXEL_SIZE, PIXEL_SIZE),
    "tile": (NAME, ZOOM, PLACE, PLACE, Hexadecimal(MOST_TILE_BYTES)),
    "tile-drop": (NAME, ZOOM, PLACE, PLACE),
    "row": (NAME, ITEM, Text(0, 1000), Text(0, 1000), Number(-MOST_AMOUNT, MOST_AMOUNT)),
    "row-drop": (NAME, ITEM),
    "media": (NAME, ITEM, CONTENT_TYPE, Hexadecimal(MOST_MEDIA_BYTES)),
    "media-drop": (NAME, ITEM),
    "map": (NAME, ITEM, ITEM),
    "map-drop": (NAME, ITEM, ITEM),
}
RECORDS = PIECES | {
    "srs": (ITEM, Text(1, 1000), Text(1, 1000), ITEM, Text(1, 8192), Text(0, 1000)),
    "pyramid": (NAME, IDENTIFIER, Number(-1, MOST_NUMBER), *[COORDINATE] * 4, Word(PYRAMIDS)),
    "table": (NAME, Word(("attributes", "media")), IDENTIFIER),
    "drop": (NAME,),
    "relation": (NAME, NAME, NAME, Word(("media", "simple_attributes"))),
    "relation-drop": (NAME,),
    "edition": (NAME,),
    "discard": (NAME,),
    "publish": (NAME,),
    "rehearse": (NAME,),
}
STAGE = (NAME, ITEM, Word(tuple(PIECES)))

LINE_ENDS = re.compile(rb"[\r\n]*")
QUOTED = re.compile(rb'"([^"]*(?:""[^"]*)*)(?:"|\Z)')
REST = re.compile(rb"[^,\r\n]*")


def sorts_of(fields):
    """Returns the sorts of the fields behind a record's word, or None where it is no command."""
    if fields[0] == "stage":
        return STAGE + PIECES[fields[3]] if len(fields) > 3 and fields[3] in PIECES else None
    return RECORDS.get(fields[0])


def read_fields(sorts, fields):
    """Returns the values of fields, None for a bad one, and the numbers against them."""
    if sorts is None or len(sorts) != len(fields):
        return [], {10}
    values, against = [], set()
    for sort, field in zip(sorts, fields):
        try:
            values.append(sort.read(field))
        except Refused as refused:
            values.append(None)
            against.add(refused.number)
    return values, against


def read_command(record):
    """Returns the command that a record spells, as its word and values, or refuses it."""
    fields = decoded(record)
    values, against = read_fields(sorts_of(fields), fields[1:])
    if against:
        raise Refused(min(against))
    return fields[0], *values


def decoded(record):
    """Returns the fields of a record as texts."""
    try:
        return [field.decode() for field in record]
    except UnicodeDecodeError:
        raise Refused(10) from None


def records(text):
    """Returns the records of a CSV list, each as its fields."""
    found, place = [], LINE_ENDS.match(text).end()
    while place < len(text):
        fields, place = read_record(text, place)
        found.append(fields)
        place = LINE_ENDS.match(text, place).end()
    return found


def read_record(text, place):
    """Returns the fields of the record that begins at a place, and where it ends."""
    fields, goes_on = [], True
    while goes_on:
        field, place = read_field(text, place)
        fields.append(field)
        goes_on = text[place : place + 1] == b","
        place += goes_on
    return fields, place


def read_field(text, place):
    """Returns the field that begins at a place, and where it ends."""
    quoted = QUOTED.match(text, place)
    rest = REST.match(text, quoted.end() if quoted else place)
    return (quoted[1].replace(b'""', b'"') if quoted else b"") + rest[0], rest.end()
