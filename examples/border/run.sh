#!/usr/bin/env bash
# A map goes from GDAL to a package, is edited there, and goes back to GDAL. Prints each command with its output.
#
#     examples/border/run.sh FOLDER
#
# FOLDER is made, and gets all files. Wants GDAL (Debian's gdal-bin) and mmpkg: the program that MMPKG names, else out/mmpkg.
set -eu -o pipefail

export MMPKG
top=$(realpath "$(dirname "$0")/../..")
MMPKG=$(realpath "${MMPKG:-$top/out/mmpkg}")
mkdir "$1"
cd "$1"
cp "$top"/examples/border/{picture.asc,colours.txt,edit.csv} .

mmpkg() {
    "$MMPKG" "$@"
}

show() {
    echo "\$ $1"
    eval "$1"
}

PATH="$top/tools:$PATH"
# A picture of nine colours, a metre a pixel, and a GeoPackage with its tiles at all zooms.
show "gdaldem color-relief -q -nearest_color_entry picture.asc colours.txt small.tif"
show "gdal_translate -q -outsize 768 768 -r nearest -a_srs EPSG:25832 small.tif picture.tif"
show "gdal_translate -q -of GPKG -co TILE_FORMAT=PNG -co RASTER_TABLE=base picture.tif in.gpkg"
show "gdaladdo -q -r nearest in.gpkg 2 4"
# In: the layout as a list, the tiles as a kit.
show "import_standard.py in.gpkg layout.csv --kit first kit"
show "mmpkg init crew.mmpkg"
show "mmpkg run crew.mmpkg --at 0 < layout.csv"
show "mmpkg kit crew.mmpkg first kit --at 0"
show "echo publish,first | mmpkg run crew.mmpkg --at 0"
# A day's work: a spot with a photo, and the tile in the middle anew.
show "mmpkg run crew.mmpkg --at 86400000 < edit.csv"
show "mmpkg list crew.mmpkg"
# Out, and opened.
show "export_standard.py crew.mmpkg out.gpkg"
show "gdalinfo -nomd out.gpkg | grep -E '^(Driver|Size|Origin|Pixel Size)'"
show "ogrinfo -al out.gpkg spots | tail -n 5"
show "gdallocationinfo -valonly -geoloc out.gpkg 500384 5600384"
