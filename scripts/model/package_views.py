"""What is seen of a package, from docs/FORMATS.md alone: the rows of its tables, its listing, and the responses of
the page."""

import hashlib
import json
import re

from package_records import ITEM, NAME, PLACE, PROFILE_VERSION, PYRAMIDS, ZOOM, read_fields

RELATED_TABLES = "gpkg_related_tables", "OGC 18-000", "read-write"
ZOOM_OTHER = "gpkg_zoom_other", "OGC 12-128r17", "read-write"
COLUMNS = {
    "gpkg_spatial_ref_sys": "srs_name srs_id organization organization_coordsys_id definition description",
    "gpkg_contents": "table_name data_type identifier description last_change min_x min_y max_x max_y srs_id",
    "gpkg_tile_matrix_set": "table_name srs_id min_x min_y max_x max_y",
    "gpkg_tile_matrix": (
        "table_name zoom_level matrix_width matrix_height tile_width tile_height pixel_x_size pixel_y_size"
    ),
    "gpkg_extensions": "table_name column_name extension_name definition scope",
    "gpkgext_relations": (
        "base_table_name base_primary_column related_table_name related_primary_column relation_name mapping_table_name"
    ),
    "mm_profile": "id version",
    "mm_tables": "table_name kind",
    "mm_tiles": "table_name zoom_level tile_column tile_row bytes",
    "mm_rows": "table_name id title note amount",
    "mm_media": "table_name id bytes content_type",
    "mm_map": "mapping base_id related_id",
    "mm_editions": "name state",
    "mm_pieces": "edition piece_no kind name k1 k2 k3 k4 k5 k6 k7 t1 t2 bytes",
    "mm_blobs": "digest data",
}
# The bytes of the blob that a row names, or none. The number of a blob is the store's own.
BYTES = "(SELECT data FROM mm_blobs WHERE id = blob)"


def query_of(table):
    """Returns the query for the rows of a table."""
    columns = COLUMNS.get(table, "*").split()
    return f"SELECT {', '.join(BYTES if it == 'bytes' else it for it in columns)} FROM {table}"


def table_rows(package):
    """Returns the rows of the fifteen tables by name, without the numbers of relations and blobs."""
    pyramids = {name: it for name, it in package.tables.items() if it.kind in PYRAMIDS}
    return {
        "gpkg_spatial_ref_sys": [(it[0], system, *it[1:]) for system, it in package.systems.items()],
        "gpkg_contents": [contents_row(package, name) for name in package.tables],
        "gpkg_tile_matrix_set": [(name, it.system, *it.extent) for name, it in pyramids.items()],
        "gpkg_tile_matrix": [(*key, *it.size, *it.tile, *it.pixel) for key, it in package.matrices.items()],
        "gpkg_extensions": extension_rows(package),
        "gpkgext_relations": [
            (base, "id", related, "id", name, it) for it, (base, related, name) in package.relations.items()
        ],
        "mm_profile": [(1, PROFILE_VERSION)],
        "mm_tables": [(name, it.kind) for name, it in package.tables.items()],
        "mm_tiles": [(*key, data) for key, data in package.tiles.items()],
        "mm_rows": [(*key, *it) for key, it in package.rows.items()],
        "mm_media": [(*key, data, content_type) for key, (content_type, data) in package.media.items()],
        "mm_map": list(package.mapped),
        "mm_editions": [(name, "published" if pieces is None else "open") for name, pieces in package.editions.items()],
        "mm_pieces": [
            (name, number, *piece_row(piece))
            for name, pieces in package.editions.items()
            for number, piece in enumerate(pieces or (), 1)
        ],
        "mm_blobs": blob_rows(package),
    }


def blob_rows(package):
    """Returns the rows of the blobs: all bytes that tiles, media and pieces have, each once."""
    pieces = [piece for them in package.editions.values() for piece in them or ()]
    kept = {
        *package.tiles.values(),
        *(data for _, data in package.media.values()),
        *(piece_row(piece)[-1] for piece in pieces),
    }
    return [(hashlib.sha256(data).hexdigest(), data) for data in kept - {None}]


def contents_row(package, name):
    """Returns the contents row of a table."""
    table = package.tables[name]
    data_type = "tiles" if table.kind in PYRAMIDS else "attributes"
    return name, data_type, table.identifier, "", table.last_change, *table.extent, table.system


def extension_rows(package):
    """Returns the rows of the extensions."""
    others = [(name, "tile_data", *ZOOM_OTHER) for name, it in package.tables.items() if it.kind == "other"]
    return [(name, None, *RELATED_TABLES) for name in ("gpkgext_relations", *package.relations)] + others


def listing(package):
    """Returns the lines of the listing."""
    lines = []
    for name, table in sorted(package.tables.items()):
        entries = sum(key[0] == name for part in (package.tiles, package.rows, package.media) for key in part)
        lines.append(f"{name:24} {table.kind:10} {entries:10} {table.last_change} {table.identifier}")
    for name, pieces in sorted(package.editions.items()):
        lines.append(f"edition {name} published" if pieces is None else f"edition {name} open {len(pieces)}")
    return lines


def quoted(field):
    """Returns a field as a record has it: in double quotes where it needs them."""
    return '"' + field.replace('"', '""') + '"' if re.search('[,"\r\n]', field) else field


def records_of_rows(package, table):
    """Returns the text of the rows of a table as the records that write them, or of the number of why it has none."""
    if package.kind(table) != "attributes":
        return f"refused {26 if table in package.tables else 25}\n"
    found = sorted((item, row) for (name, item), row in package.rows.items() if name == table)
    return "".join(
        ",".join(map(quoted, ("row", table, str(item), title, note, str(amount)))) + "\n"
        for item, (title, note, amount) in found
    )


def respond(package, method, target):
    """Returns the response to a request, or to none that can be read where the method is None."""
    if method is None:
        return response("400 Bad Request")
    if method != "GET":
        return response("405 Method Not Allowed", "Allow: GET\r\n")
    found = page(package, target.split("?")[0].split("/"))
    if found is None:
        return response("404 Not Found")
    return response("200 OK", f"Content-Type: {found[0]}\r\n", found[1])


def page(package, parts):
    """Returns the content type and the body of a target's parts, or None."""
    front, route, *keys = parts if len(parts) > 1 else ("", "")
    if front or route not in ROUTES:
        return None
    found, *sorts = ROUTES[route]
    values, against = read_fields(sorts, keys)
    return None if against else found(package, *values)


def tile_page(package, *key):
    """Returns a tile."""
    return ("application/octet-stream", package.tiles[key]) if key in package.tiles else None


def media_page(package, *key):
    """Returns a medium."""
    return package.media.get(key)


def related_page(package, table, item):
    """Returns what an item is related to."""
    if not package.is_item(table, item):
        return None
    found = []
    for mapping, base, related in sorted(package.mapped):
        base_table, related_table, name = package.relations[mapping]
        if (base_table, base) == (table, item):
            found.append({"id": related, "mapping": mapping, "name": name, "table": related_table})
    return "application/json", compact(found)


def contents_page(package):
    """Returns the list of the tables."""
    found = []
    for name, table in sorted(package.tables.items()):
        data_type = "tiles" if table.kind in PYRAMIDS else "attributes"
        entry = {"data_type": data_type, "identifier": table.identifier, "kind": table.kind}
        entry |= {"last_change": table.last_change, "table": name}
        if table.kind in PYRAMIDS:
            entry |= {"extent": table.extent, "srs_id": table.system}
        found.append(entry)
    return "application/json", compact(found)


ROUTES = {
    "tiles": (tile_page, NAME, ZOOM, PLACE, PLACE),
    "media": (media_page, NAME, ITEM),
    "related": (related_page, NAME, ITEM),
    "contents": (contents_page,),
}


def compact(value):
    """Returns compact JSON with the keys in rising order."""
    return json.dumps(value, separators=(",", ":"), sort_keys=True, ensure_ascii=False).encode()


def response(status, line="", body=b""):
    """Returns the bytes of a response."""
    return f"HTTP/1.1 {status}\r\n{line}Content-Length: {len(body)}\r\nConnection: close\r\n\r\n".encode() + body


def piece_row(piece):
    """Returns the columns of a piece behind its edition and number, with its bytes, or None, in place of its blob."""
    kind, name, *values = piece
    integers = [it for it in values if isinstance(it, int)]
    texts = [it for it in values if isinstance(it, str)]
    data = next((it for it in values if isinstance(it, bytes)), None)
    return kind, name, *(integers + [0] * 7)[:7], *(texts + [""] * 2)[:2], data
