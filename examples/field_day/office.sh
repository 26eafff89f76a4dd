# What both days of this folder begin with (run.sh, by_page.sh): how commands are shown, and the office's package. Sourced with the folder that
# is to be made as $1; it goes there.
# shellcheck shell=bash
export MMPKG GDAL_PAM_ENABLED=NO
folder=${1:?the folder that is to be made is asked for}
top=$(realpath "$(dirname "${BASH_SOURCE[0]}")/../..")
MMPKG=$(realpath "${MMPKG:-$top/out/mmpkg}")
PATH="$top/tools:$top/examples/field_day:$PATH"
mkdir "$folder"
cd "$folder" || exit 2
cp "$top"/examples/field_day/{colours.txt,shaded.vrt} .
# Moments of 15 June 2026, as milliseconds since 1970.
# shellcheck disable=SC2034  # they stand in what show evaluates
dawn=1781496000000 morning=1781503200000 noon=1781524800000

mmpkg() {
    "$MMPKG" "$@"
}

show() {
    echo "\$ $1"
    eval "$1"
}

# Draws what NAME.geojson has into a picture, with a white edge: PICTURE NAME RED GREEN BLUE
draw() {
    gdal_rasterize -q -b 1 -b 2 -b 3 -burn 255 -burn 255 -burn 255 "$2_wide.geojson" "$1"
    gdal_rasterize -q -b 1 -b 2 -b 3 -burn "$3" -burn "$4" -burn "$5" "$2.geojson" "$1"
}

# Makes office.mmpkg, with the page.
office() {
    echo "The office: a shaded map with contours, 1024 by 1024 pixels of 2 m, and the boundary stones of the books."
    show 'land.py terrain > terrain.asc'
    show 'land.py office terrain.asc'
    show 'gdal_translate -q -a_srs EPSG:25832 -r cubicspline -outsize 800% 800% terrain.asc terrain.tif'
    show 'gdaldem color-relief -q terrain.tif colours.txt colour.tif'
    show 'gdaldem hillshade -q -alt 50 -z 1.3 -compute_edges terrain.tif shade.tif'
    show 'gdal_translate -q shaded.vrt picture.tif'
    show 'gdal_contour -q -i 20 terrain.tif contours.geojson'
    show 'gdal_rasterize -q -b 1 -b 2 -b 3 -burn 150 -burn 120 -burn 84 contours.geojson picture.tif'
    show 'draw picture.tif stones 40 40 48'
    show 'gdal_translate -q -of GPKG -co TILE_FORMAT=PNG -co RASTER_TABLE=base -co "RASTER_IDENTIFIER=Base map" picture.tif in.gpkg'
    show 'gdaladdo -q -r average in.gpkg 2'
    show 'import_standard.py in.gpkg layout.csv --kit first first'
    show 'mmpkg init office.mmpkg'
    show 'mmpkg run office.mmpkg --at $dawn < layout.csv'
    show 'mmpkg kit office.mmpkg first first --at $dawn'
    show 'echo publish,first | mmpkg run office.mmpkg --at $dawn'
    show 'mmpkg run office.mmpkg --at $dawn < spots.csv | tail -n 1'
    show 'make_viewer.py office.mmpkg viewer'
    show 'mmpkg run office.mmpkg --at $dawn < viewer/layout.csv'
    show 'mmpkg kit office.mmpkg viewer viewer --at $dawn'
    show 'echo publish,viewer | mmpkg run office.mmpkg --at $dawn'
}

# What an office sees of its copies, without the word by chance that each has: north_1_q7x2ab is north_1_WORD.
marks() {
    sed -E 's/((north|south)_1)_[a-z0-9]{6}/\1_WORD/g'
}

# Takes both crews' work home.
evening() {
    echo
    echo "The work comes home, by one command a crew. Both saw boundary stone 7: the office keeps what the first tells of it until it decides."
    show 'come_home.py office.mmpkg north_1.mmpkg 2>&1'
    show 'come_home.py office.mmpkg south_1.mmpkg 2>&1 | marks || echo "status $?"'
}
