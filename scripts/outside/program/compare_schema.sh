#!/usr/bin/env bash
# Opens a package file with the system's sqlite3, which shares no code with this repository, and compares it with the
# tables, keys, indexes and given rows of the profile, as the lists below write them, and its blobs with their form.
# Prints the differences, if any, and fails then.
#
#     scripts/outside/program/compare_schema.sh FILE
set -eu -o pipefail

if [ $# -ne 1 ] || [ ! -f "$1" ]; then
    echo "usage: scripts/outside/program/compare_schema.sh FILE" >&2
    exit 2
fi
file=$1

ask() {
    sqlite3 -batch -noheader -list -separator '|' "file:$file?mode=ro" "$1"
}

# P1, P2, ..: the places of the primary key; ?: may be NULL
tables() {
    cat <<'END'
gpkg_contents (table_name TEXT P1, data_type TEXT, identifier TEXT, description TEXT, last_change TEXT, min_x INTEGER?, min_y INTEGER?, max_x INTEGER?, max_y INTEGER?, srs_id INTEGER?) strict
gpkg_extensions (table_name TEXT?, column_name TEXT?, extension_name TEXT, definition TEXT, scope TEXT) strict
gpkg_spatial_ref_sys (srs_name TEXT, srs_id INTEGER P1, organization TEXT, organization_coordsys_id INTEGER, definition TEXT, description TEXT) strict
gpkg_tile_matrix (table_name TEXT P1, zoom_level INTEGER P2, matrix_width INTEGER, matrix_height INTEGER, tile_width INTEGER, tile_height INTEGER, pixel_x_size INTEGER, pixel_y_size INTEGER) strict
gpkg_tile_matrix_set (table_name TEXT P1, srs_id INTEGER, min_x INTEGER, min_y INTEGER, max_x INTEGER, max_y INTEGER) strict
gpkgext_relations (id INTEGER P1, base_table_name TEXT, base_primary_column TEXT, related_table_name TEXT, related_primary_column TEXT, relation_name TEXT, mapping_table_name TEXT) strict
mm_blobs (id INTEGER P1, digest TEXT, data BLOB) strict
mm_editions (name TEXT P1, state TEXT) strict
mm_map (mapping TEXT P1, base_id INTEGER P2, related_id INTEGER P3) strict
mm_media (table_name TEXT P1, id INTEGER P2, blob INTEGER, content_type TEXT) strict
mm_pieces (edition TEXT P1, piece_no INTEGER P2, kind TEXT, name TEXT, k1 INTEGER, k2 INTEGER, k3 INTEGER, k4 INTEGER, k5 INTEGER, k6 INTEGER, k7 INTEGER, t1 TEXT, t2 TEXT, blob INTEGER?) strict
mm_profile (id INTEGER P1, version INTEGER) strict
mm_rows (table_name TEXT P1, id INTEGER P2, title TEXT, note TEXT, amount INTEGER) strict
mm_tables (table_name TEXT P1, kind TEXT) strict
mm_tiles (table_name TEXT P1, zoom_level INTEGER P2, tile_column INTEGER P3, tile_row INTEGER P4, blob INTEGER) strict
END
}

indexes() {
    cat <<'END'
mm_blobs (digest)
mm_map (mapping, related_id)
mm_media (blob)
mm_pieces (blob)
mm_tiles (blob)
END
}

uniques() {
    cat <<'END'
gpkg_contents unique (identifier)
gpkg_extensions unique (table_name, column_name, extension_name)
gpkgext_relations unique (mapping_table_name)
END
}

references() {
    cat <<'END'
gpkg_contents (srs_id) to gpkg_spatial_ref_sys (srs_id) on delete NO ACTION
gpkg_tile_matrix (table_name) to gpkg_contents (table_name) on delete CASCADE
gpkg_tile_matrix_set (srs_id) to gpkg_spatial_ref_sys (srs_id) on delete NO ACTION
gpkg_tile_matrix_set (table_name) to gpkg_contents (table_name) on delete CASCADE
gpkgext_relations (base_table_name) to gpkg_contents (table_name) on delete RESTRICT
gpkgext_relations (related_table_name) to gpkg_contents (table_name) on delete RESTRICT
mm_map (mapping) to gpkgext_relations (mapping_table_name) on delete CASCADE
mm_media (blob) to mm_blobs (id) on delete RESTRICT
mm_media (table_name) to gpkg_contents (table_name) on delete CASCADE
mm_pieces (blob) to mm_blobs (id) on delete RESTRICT
mm_pieces (edition) to mm_editions (name) on delete CASCADE
mm_rows (table_name) to gpkg_contents (table_name) on delete CASCADE
mm_tables (table_name) to gpkg_contents (table_name) on delete CASCADE
mm_tiles (blob) to mm_blobs (id) on delete RESTRICT
mm_tiles (table_name, zoom_level) to gpkg_tile_matrix (table_name, zoom_level) on delete CASCADE
END
}

given_rows() {
    cat <<'END'
-1|Undefined Cartesian|NONE|-1|undefined|undefined Cartesian coordinates
0|Undefined geographic|NONE|0|undefined|undefined geographic coordinates
4326|WGS 84 geographic|EPSG|4326|EPSG:4326|longitude and latitude
1|2
gpkgext_relations||gpkg_related_tables|OGC 18-000|read-write
END
}

failed=0
compare() {
    if ! diff <(LC_ALL=C sort <<<"$2") <(LC_ALL=C sort <<<"$3"); then
        echo "$1: differs" >&2
        failed=1
    fi
}

compare "integrity_check" "ok" "$(ask 'PRAGMA integrity_check')"
compare "foreign_key_check" "" "$(ask 'PRAGMA foreign_key_check')"
compare "tables" "$(tables)" "$(ask "
    SELECT t.name || ' ('
        || (SELECT group_concat(c.name || ' ' || c.type || iif(c.\"notnull\", '', '?')
                || iif(c.pk, ' P' || c.pk, ''), ', ')
            FROM (SELECT * FROM pragma_table_info(t.name) ORDER BY cid) c)
        || ')' || iif(t.strict, ' strict', '')
    FROM pragma_table_list t WHERE t.schema = 'main' AND t.name NOT LIKE 'sqlite\\_%' ESCAPE '\\'")"
compare "unique keys" "$(uniques)" "$(ask "
    SELECT t.name || ' unique ('
        || (SELECT group_concat(i.name, ', ') FROM (SELECT * FROM pragma_index_info(k.name) ORDER BY seqno) i) || ')'
    FROM pragma_table_list t, pragma_index_list(t.name) k
    WHERE t.schema = 'main' AND t.name NOT LIKE 'sqlite\\_%' ESCAPE '\\' AND k.origin <> 'pk' AND k.\"unique\"")"
compare "indexes" "$(indexes)" "$(ask "
    SELECT t.name || ' ('
        || (SELECT group_concat(i.name, ', ') FROM (SELECT * FROM pragma_index_info(k.name) ORDER BY seqno) i) || ')'
    FROM pragma_table_list t, pragma_index_list(t.name) k
    WHERE t.schema = 'main' AND t.name NOT LIKE 'sqlite\\_%' ESCAPE '\\' AND NOT k.\"unique\"")"
compare "foreign keys" "$(references)" "$(ask "
    SELECT name || ' (' || group_concat(\"from\", ', ') || ') to ' || parent
        || ' (' || group_concat(\"to\", ', ') || ') on delete ' || on_delete
        || iif(on_update = 'NO ACTION', '', ' on update ' || on_update)
    FROM (SELECT t.name, f.id, f.seq, f.\"from\", f.\"table\" AS parent, f.\"to\", f.on_delete, f.on_update
        FROM pragma_table_list t, pragma_foreign_key_list(t.name) f WHERE t.schema = 'main'
        ORDER BY t.name, f.id, f.seq)
    GROUP BY name, id")"
compare "given rows" "$(given_rows)" "$(ask "
    SELECT srs_id, srs_name, organization, organization_coordsys_id, definition, description
        FROM gpkg_spatial_ref_sys WHERE srs_id IN (4326, -1, 0);
    SELECT id, version FROM mm_profile;
    SELECT table_name, column_name, extension_name, definition, scope
        FROM gpkg_extensions WHERE table_name = 'gpkgext_relations'")"

compare "blobs that nothing names, are empty or hold the bytes of another" "" "$(ask "
    SELECT b.id FROM mm_blobs b
    WHERE b.id NOT IN (SELECT blob FROM mm_tiles UNION SELECT blob FROM mm_media
            UNION SELECT blob FROM mm_pieces WHERE blob IS NOT NULL)
        OR length(b.data) = 0 OR EXISTS (SELECT 1 FROM mm_blobs o WHERE o.id <> b.id AND o.data = b.data)")"
while IFS='|' read -r digest data; do
    compare "digest of a blob" "$(xxd -r -p <<<"$data" | sha256sum | cut -d ' ' -f 1)" "$digest"
done < <(ask "SELECT digest, hex(data) FROM mm_blobs")

if [ "$failed" -eq 0 ]; then
    echo "schema ok"
fi
exit "$failed"
