#!/usr/bin/env bash
# A day of two crews: an office makes a map by GDAL, two crews go out with a copy each and work while their program is killed again and
# again, and what both did comes home, with the one place where they disagree named. Prints each command with its output.
#
#     examples/field_day/run.sh FOLDER
#
# FOLDER is made, and gets all files; before.png and after.png are the map in the browser, where Chromium is there. Wants Debian's gdal-bin
# and libjs-leaflet, and mmpkg: the program that MMPKG names, else out/mmpkg. What it prints is the same on each machine.
set -eu -o pipefail

# shellcheck source=examples/field_day/office.sh
source "$(dirname "$0")/office.sh"

# Cuts tiles of zoom 2 out of a picture, for a kit: PICTURE FOLDER COLUMN/ROW..
tiles() {
    local it column row
    for it in "${@:3}"; do
        column=${it%/*} row=${it#*/}
        mkdir -p "$2/2/$column"
        gdal_translate -q -of PNG -srcwin $((column * 256)) $((row * 256)) 256 256 "$1" "$2/2/$it.png"
    done
}

# Prints the records of the two tiles of a row of zoom 1: PICTURE ROW
records() {
    local column
    for column in 0 1; do
        gdal_translate -q -of PNG -r average -outsize 256 256 -srcwin $((column * 512)) $(($2 * 512)) 512 512 "$1" tile.png
        echo "tile,base,1,$column,$2,$(od -An -v -tx1 tile.png | tr -d ' \n')"
    done
}

office
show 'look.py office.mmpkg 7 before.png'

# A crew's day: NAME SEED COLOUR ROW_AT_ZOOM_1 TILES_AT_ZOOM_2
crew() {
    local name=$1 seed=$2 colour=$3 row=$4 tiles=$5
    echo
    echo "The crew in the $name: a copy, a list, and a kit. The program is killed five times in each."
    show "hand_out.py office.mmpkg $name"
    show "land.py crew $name terrain.asc"
    show "cp picture.tif $name.tif && draw $name.tif $name $colour"
    show "records $name.tif $row >> $name.csv"
    show "tiles $name.tif tiles_$name $tiles"
    show "make_kit.py tiles_$name base ${name}_kit ${name}_kit"
    show "awk '{ print NR + 6 \",\" \$0 }' ${name}_more.csv >> ${name}_kit/kit.csv"
    show "killed.py run ${name}_1.mmpkg $name.csv $seed \$morning"
    show "mmpkg check ${name}_1.mmpkg"
    show "mmpkg run ${name}_1.mmpkg --at \$morning < $name.csv | tail -n 1"
    show "echo edition,${name}_kit | mmpkg run ${name}_1.mmpkg --at \$noon"
    show "killed.py kit ${name}_1.mmpkg ${name}_kit ${name}_kit $seed \$noon"
    show "mmpkg check ${name}_1.mmpkg"
    show "mmpkg kit ${name}_1.mmpkg ${name}_kit ${name}_kit --at \$noon"
    show "echo publish,${name}_kit | mmpkg run ${name}_1.mmpkg --at \$noon"
    show "mmpkg list ${name}_1.mmpkg | marks"
}

crew north 7 '208 52 44' 0 '0/0 1/0 2/0 1/1 2/1 3/1'
crew south 11 '74 62 168' 1 '1/2 2/2 3/2 0/3 1/3 3/3'

evening
show 'cat office.mmpkg.crews/south_1_*.conflicts/conflicts.csv'
show "mmpkg list office.mmpkg | awk '{ print \$1, \$2, \$3 }' | marks"
show 'look.py office.mmpkg 11 after.png'

echo
echo "What stands there of the form that the office laid out: its fields, and a row with what the device told, their values, and who saved it."
show 'mmpkg show office.mmpkg forms'
show 'mmpkg show office.mmpkg spots 4'

echo
echo "Out to GDAL, which finds the colours of both crews and what they wrote, word by word in columns; and to files, with the PDF and the sound."
show 'export_standard.py office.mmpkg out.gpkg --columns spots --photos files 2>&1 | marks'
show "gdalinfo -nomd out.gpkg | grep -E '^(Driver|Size|Origin|Pixel Size)'"
show 'gdallocationinfo -valonly -geoloc out.gpkg 501210 5601640 | paste -sd " "'
show 'gdallocationinfo -valonly -geoloc out.gpkg 500610 5600560 | paste -sd " "'
show "ogrinfo -q -where 'id IN (4, 7, 9, 149, 249)' out.gpkg spots | grep ' = '"
show "ogrinfo -q -sql 'SELECT content_type, count(*) AS items FROM photos GROUP BY content_type' out.gpkg | grep ' = '"
show "grep -E 'spots/Boundary_stone_([1289]|10)-' files/photos.csv"
show 'cmp files/spots/Boundary_stone_1-1_2.pdf <(land.py paper "Boundary stone 1") && echo the same'
