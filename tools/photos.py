"""Photos of rows as files: their names, and a list of them."""

import csv
import mimetypes
import re
import unicodedata

from border import LINE, image_suffix

LISTED = ("file", "table", "row", "title", "media", "item", "content_type")
MOST_BYTES = 120
# The suffixes of what a crew's page takes beside pictures: Python knows some of the types alone, and systems differ.
SUFFIXES = {"audio/ogg": ".ogg", "audio/webm": ".webm", "audio/wav": ".wav", "audio/mpeg": ".mp3", "audio/mp4": ".m4a",
            "application/geo+json": ".geojson", "application/gpx+xml": ".gpx"}  # fmt: skip
# By table of rows, with each photo of a row that a relation of the name media relates to it.
RELATED = """
SELECT r.base_table_name, m.base_id, w.title, r.related_table_name, m.related_id, p.content_type, b.data
FROM {0}.gpkgext_relations r JOIN {0}.mm_map m ON m.mapping = r.mapping_table_name
JOIN {0}.mm_rows w ON w.table_name = r.base_table_name AND w.id = m.base_id
JOIN {0}.mm_media p ON p.table_name = r.related_table_name AND p.id = m.related_id JOIN {0}.mm_blobs b ON b.id = p.blob
WHERE r.relation_name = 'media' ORDER BY r.base_table_name, m.base_id, r.mapping_table_name, m.related_id
"""
# What tables of photos of rows have that no row is related to.
ALONE = """
SELECT p.table_name, p.id, '', p.table_name, p.id, p.content_type, b.data
FROM {0}.mm_media p JOIN {0}.mm_blobs b ON b.id = p.blob
WHERE p.table_name IN (SELECT related_table_name FROM {0}.gpkgext_relations JOIN {0}.mm_tables ON
  table_name = base_table_name WHERE relation_name = 'media' AND kind = 'attributes')
AND NOT EXISTS (SELECT 1 FROM {0}.gpkgext_relations r JOIN {0}.mm_map m ON m.mapping = r.mapping_table_name
  WHERE r.related_table_name = p.table_name AND m.related_id = p.id) ORDER BY p.table_name, p.id
"""


def safe(title):
    """A title as part of a file's name, in any system: letters, digits, - and _."""
    text = re.sub(r"[^\w-]+", "_", unicodedata.normalize("NFC", title)).strip("_")
    return text.encode()[:MOST_BYTES].decode(errors="ignore") or "row"


def name_of(title, row, count, suffix):
    """The name of a row's photo. Behind its last hyphen stand the row's number and which photo it is: no two agree."""
    return f"{safe(title)}-{row}{f'_{count}' if count > 1 else ''}{suffix}"


def suffix_of(content_type, data):
    return image_suffix(data) or SUFFIXES.get(content_type) or mimetypes.guess_extension(content_type) or ".bin"


def write(opened, schema, folder):
    """Writes all photos of a package's rows into a folder, one a table, and photos.csv; returns how many there are."""
    folder.mkdir()
    counts = {}
    with open(folder / "photos.csv", "w", encoding="utf-8", newline="") as listed:
        lines = csv.writer(listed)
        lines.writerow(LISTED)
        for query in (RELATED, ALONE):
            for table, row, title, media, item, content_type, data in opened.execute(query.format(schema)):
                counts[table, row] = counts.get((table, row), 0) + 1
                name = name_of(title, row, counts[table, row], suffix_of(content_type, data))
                LINE.tell(f"photo {sum(counts.values())}")
                (folder / table).mkdir(exist_ok=True)
                (folder / table / name).write_bytes(data)
                of_row = (table, row, title) if query == RELATED else ("", "", "")
                lines.writerow([f"{table}/{name}", *of_row, media, item, content_type])
    LINE.clear()
    return sum(counts.values())
