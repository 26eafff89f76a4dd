#!/usr/bin/env bash
# The day of two crews by the page: each opens its copy of the office's package by tools/crew.py, and adds, changes and removes rows with places,
# photos, a PDF, a sound and values of the office's form by the page's forms in headless Chromium, while the program is killed ten times and the
# browser twice. In the evening both crews' work comes home, goes out as points with columns, and GDAL finds each row at its place. Prints each
# command with its output.
#
#     examples/field_day/by_page.sh FOLDER
#
# FOLDER is made, and gets all files; page.png is the page in the evening. Wants Debian's gdal-bin, libjs-leaflet, chromium and curl, and mmpkg:
# the program that MMPKG names, else out/mmpkg. What it prints is the same on each machine.
set -eu -o pipefail

# shellcheck source=examples/field_day/office.sh
source "$(dirname "$0")/office.sh"

# A crew's day: NAME SEED
crew() {
    echo
    show "hand_out.py office.mmpkg $1"
    show "crew_day.py work $1 $1_1.mmpkg terrain.asc $2 $1.json"
    show "mmpkg check $1_1.mmpkg"
    show "mmpkg list $1_1.mmpkg | awk '{ print \$1, \$2, \$3 }' | marks"
}

office
crew north 7
crew south 11

evening
show "mmpkg list office.mmpkg | awk '{ print \$1, \$2, \$3 }' | marks"
show 'mmpkg check office.mmpkg'

echo
echo "Out to GDAL as points with photos and files, and with the words of their notes as columns."
show 'export_standard.py office.mmpkg out.gpkg --points spots --columns spots 2>&1 | marks'
show 'ogrinfo -q out.gpkg | grep spots'
show 'ogrinfo -so out.gpkg spots | grep -E "^[a-z]+: (Int|Real|Str)"'
show "ogrinfo -q -sql 'SELECT content_type, count(*) AS items FROM photos GROUP BY content_type' out.gpkg | grep ' = '"
show 'ogr2ogr -f CSV -lco GEOMETRY=AS_XY seen.csv out.gpkg spots'
show 'crew_day.py compare seen.csv north.json south.json'
show 'crew_day.py look office.mmpkg "Spring north 1" page.png'
