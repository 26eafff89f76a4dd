#!/usr/bin/python3
"""Makes files as GDAL, QGIS and others write them, and odd ones, for the check of the import. Wants python3-gdal.

    scripts/outside/border/odd_files.py FOLDER

Each is a layer of points with the columns of rows (`ok.gpkg`), of another kind or in another system, or one of these
that SQLite changed afterwards.
"""

import pathlib
import shutil
import sqlite3
import sys

from osgeo import gdal, ogr, osr

ROWS = {"title": ogr.OFTString, "note": ogr.OFTString, "amount": ogr.OFTInteger64}
ONE = (("Oak", "old", 7), "POINT (500000.5 5600000.25)")
NONE = ((None, None, None), "POINT (500001 5600001)")
DEGREES = (("Oak", "old", 7), "POINT (9.5 50.5)")
STONES = {
    "name": ogr.OFTString,
    "height": ogr.OFTReal,
    "kept by": ogr.OFTString,
    "day": ogr.OFTDate,
    "photo": ogr.OFTBinary,
}
STONE = (("S 1", 12.5, 'the "Post"', "2026/01/02", None), "POINT (500000.5 5600000.25)")
OTHER = {"it's": ogr.OFTString, 'a "b"': ogr.OFTInteger, "select": ogr.OFTReal}

# By a file's name, what its layer is: name, kind of geometry, system, columns, rows, options.
LAYERS = {
    "ok": ("spots", ogr.wkbPoint, 25832, ROWS, [ONE], ["FID=id"]),
    "heights": ("spots", ogr.wkbPoint25D, 25832, ROWS, [(ONE[0], "POINT Z (1 2 3)")], ["FID=id"]),
    "empty": ("spots", ogr.wkbPoint, 25832, ROWS, [], ["FID=id"]),
    "no_places": ("spots", ogr.wkbPoint, 25832, ROWS, [(ONE[0], None)], ["FID=id"]),
    "any_shape": ("spots", ogr.wkbUnknown, 25832, ROWS, [(ONE[0], "LINESTRING (1 2, 3 4)"), ONE], ["FID=id"]),
    "nulls": ("spots", ogr.wkbPoint, 25832, {**ROWS, "more": ogr.OFTString}, [((*NONE[0], "x"), NONE[1])], []),
    "stones": ("stones", ogr.wkbPoint, 25832, STONES, [STONE, ((None,) * 5, "POINT (1 2)")], []),
    "quotes": ("it's \"x\"", ogr.wkbPoint, 25832, OTHER, [(("a", 1, 2.5), "POINT (1 2)")], []),
    "lines": ("ways", ogr.wkbLineString, 25832, {"name": ogr.OFTString}, [(("Lane",), "LINESTRING (1 2, 3 4)")], []),
    "several": ("spots", ogr.wkbMultiPoint, 25832, ROWS, [(ONE[0], "MULTIPOINT (1 2, 3 4)")], ["FID=id"]),
    "table": ("owners", ogr.wkbNone, None, {"name": ogr.OFTString}, [(("Ada",), None)], []),
    "degrees": ("spots", ogr.wkbPoint, 4326, ROWS, [DEGREES], ["FID=id"]),
    "no_system": ("spots", ogr.wkbPoint, None, ROWS, [DEGREES], ["FID=id"]),
    "south": ("spots", ogr.wkbPoint, 4326, ROWS, [(ONE[0], "POINT (174.5 -41.25)")], ["FID=id"]),
}
TABLE = "INSERT INTO gpkg_contents (table_name, data_type, identifier) VALUES ('more', 'attributes', 'more')"
GEOMETRIES = "CREATE TABLE gpkg_geometry_columns (table_name, column_name, geometry_type_name, srs_id, z, m)"
RELATIONS = (
    "CREATE TABLE gpkgext_relations (id, base_table_name, base_primary_column, related_table_name, "
    "related_primary_column, relation_name, mapping_table_name)"
)
CONTENTS = (
    "CREATE TABLE gpkg_contents (table_name, data_type, identifier, description, last_change, min_x, min_y, max_x, "
    "max_y, srs_id)"
)
MATRICES = (
    "CREATE TABLE gpkg_tile_matrix (table_name, zoom_level, matrix_width, matrix_height, tile_width, tile_height, "
    "pixel_x_size, pixel_y_size)"
)
# By a file's name, the file that it is made of, and what SQLite does to that.
CHANGED = {
    "no_extent": ("ok",
                  "UPDATE gpkg_contents SET min_x = NULL, min_y = NULL, max_x = NULL, max_y = NULL, srs_id = NULL"),
    "no_extensions": ("ok", "DROP TABLE gpkg_extensions"),
    "no_geometry_columns": ("ok", "DROP TABLE gpkg_geometry_columns"),
    "no_systems": ("ok", "DROP TABLE gpkg_spatial_ref_sys"),
    "no_table": ("ok", "DROP TABLE spots"),
    "no_kind": ("ok", "DROP TABLE gpkg_geometry_columns", GEOMETRIES,
                "INSERT INTO gpkg_geometry_columns VALUES ('spots', 'geom', NULL, 25832, 0, 0)"),
    "two_geometries": ("ok", "ALTER TABLE spots ADD COLUMN other BLOB", "DROP TABLE gpkg_geometry_columns", GEOMETRIES,
                       "INSERT INTO gpkg_geometry_columns VALUES ('spots', 'geom', 'POINT', 25832, 0, 0), "
                       "('spots', 'other', 'POINT', 25832, 0, 0)"),
    "no_such_column": ("ok", "UPDATE gpkg_geometry_columns SET column_name = 'shape'"),
    "few_columns": ("ok", "DROP TABLE gpkg_contents", "CREATE TABLE gpkg_contents (table_name, data_type)",
                    "INSERT INTO gpkg_contents VALUES ('spots', 'features')"),
    "no_texts": ("ok", "DROP TABLE gpkg_contents", CONTENTS,
                 "INSERT INTO gpkg_contents VALUES (x'00', 'features', x'01', x'02', 1, 2, 3, 4, 5, 6), "
                 "(NULL, NULL, NULL, NULL, NULL, NULL, NULL, NULL, NULL, NULL), (7, 8, 9, 1, 1, 1, 1, 1, 1, 1)"),
    "odd_systems": ("ok", "DROP TABLE gpkg_spatial_ref_sys", "CREATE TABLE gpkg_spatial_ref_sys (srs_name, srs_id, "
                    "organization, organization_coordsys_id, definition, description)",
                    "INSERT INTO gpkg_spatial_ref_sys VALUES (NULL, NULL, NULL, NULL, NULL, NULL), "
                    "('x', 25832, 'EPSG', 25832, x'00', x'01'), ('x', 'a', 'EPSG', 1, NULL, NULL)"),
    "odd_relations": ("ok", RELATIONS, "INSERT INTO gpkgext_relations VALUES (1, NULL, NULL, NULL, NULL, NULL, NULL), "
                      "(2, 'spots', 'id', 'spots', 'id', 'simple_attributes', 'm'), "
                      "(3, x'00', x'00', x'00', x'00', x'00', x'00'), (4, 'spots', 'id', 'spots', 'id', NULL, 'n')",
                      "CREATE TABLE m (base_id, related_id)", "INSERT INTO m VALUES ('x', NULL), (1, 1)"),
    "short_relations": ("ok", "CREATE TABLE gpkgext_relations (id, base_table_name)"),
    "view": ("ok", "CREATE VIEW more AS SELECT id, title, note, amount FROM spots", TABLE),
    "broken_view": ("ok", "CREATE VIEW more AS SELECT id FROM nowhere", TABLE),
    "trigger": ("ok", "CREATE TRIGGER t AFTER INSERT ON spots BEGIN UPDATE spots SET title = ST_IsEmpty(geom); END"),
    "generated": ("ok", "CREATE TABLE more (id INTEGER PRIMARY KEY, title, note, amount GENERATED ALWAYS AS (3))",
                  "INSERT INTO more (id, title, note) VALUES (1, 'a', 'b')", TABLE),
    "no_rowid": ("ok", "CREATE TABLE more (id INTEGER PRIMARY KEY, title, note, amount) WITHOUT ROWID",
                 "INSERT INTO more VALUES (1, 'a', 'b', 2)", TABLE),
    "few_matrix_columns": ("map", "DROP TABLE gpkg_tile_matrix",
                           "CREATE TABLE gpkg_tile_matrix (table_name, zoom_level)"),
    "no_matrix_sets": ("map", "DROP TABLE gpkg_tile_matrix_set"),
    "odd_extent": ("map", "UPDATE gpkg_tile_matrix_set SET min_x = 'x'"),
    "odd_matrices": ("map", "DROP TABLE gpkg_tile_matrix", MATRICES,
                     "INSERT INTO gpkg_tile_matrix VALUES ('map', 'a', 1, 2, 3, 4, 5, 6), "
                     "('map', NULL, NULL, NULL, NULL, NULL, NULL, NULL), ('map', 0, '1', '1', 256, 256, x'00', '1')"),
}  # fmt: skip


def system(number):
    made = osr.SpatialReference()
    made.ImportFromEPSG(number)
    made.SetAxisMappingStrategy(osr.OAMS_TRADITIONAL_GIS_ORDER)
    return made


def make_layer(file, name, kind, number, columns, rows, options):
    made = ogr.GetDriverByName("GPKG").CreateDataSource(str(file))
    layer = made.CreateLayer(name, number and system(number), kind, options=options)
    for column, sort in columns.items():
        layer.CreateField(ogr.FieldDefn(column, sort))
    for values, shape in rows:
        feature = ogr.Feature(layer.GetLayerDefn())
        for at, value in enumerate(values):
            if value is not None:
                feature.SetField(at, value)
        if shape:
            feature.SetGeometry(ogr.CreateGeometryFromWkt(shape))
        layer.CreateFeature(feature)


def make_pictures(folder):
    picture = gdal.GetDriverByName("GTiff").Create(str(folder / "map.tif"), 300, 200, 3)
    picture.SetProjection(system(25832).ExportToWkt())
    picture.SetGeoTransform([500000, 1, 0, 5600200, 0, -1])
    picture.GetRasterBand(2).Fill(200)
    picture.FlushCache()
    for name, driver in (("map.gpkg", "GPKG"), ("map.mbtiles", "MBTILES"), ("map.vrt", "VRT"), ("map.png", "PNG")):
        gdal.Translate(str(folder / name), picture, format=driver)


def main():
    folder = pathlib.Path(sys.argv[1])
    gdal.UseExceptions()
    make_pictures(folder)
    for name, words in LAYERS.items():
        make_layer(folder / f"{name}.gpkg", *words)
    for name, (base, *texts) in CHANGED.items():
        shutil.copyfile(folder / f"{base}.gpkg", folder / f"{name}.gpkg")
        opened = sqlite3.connect(folder / f"{name}.gpkg", isolation_level=None)
        for text in texts:
            opened.execute(text)
        opened.close()
    whole = (folder / "ok.gpkg").read_bytes()
    (folder / "cut.gpkg").write_bytes(whole[: len(whole) // 2])
    (folder / "head.gpkg").write_bytes(whole[:16] + b"\x55" * 5000)
    gdal.VectorTranslate(str(folder / "ok.geojson"), str(folder / "ok.gpkg"), format="GeoJSON")
    gdal.VectorTranslate(str(folder / "ok.sqlite"), str(folder / "ok.gpkg"), format="SQLite")


if __name__ == "__main__":
    main()
