#!/usr/bin/env bash
# What the built program shows from outside, by programs that share no code with this repository: the example with its
# output, the lines of the documents, where the program calls the system for files, what a build leaves in its clone,
# the tables of the file, the page and the desk by curl and over sockets, a machine's clock at its ends, what waits
# for the disk, a terminal, refused growths of memory, random lists against a model, what turns one package into
# another, copies that go out and come home; and where the peers are there, the border to the standard, maps by one
# command and beside a package, the viewer in two browsers, a crew at the page and its command, GDAL and QGIS by WMTS,
# the day of two crews by lists and by the page, the Debian package in a fresh Debian, and the power of a virtual
# machine that is cut. The last line is 'N passed, M failed'.
#
#     scripts/outside.sh [PROGRAM]
#
# PROGRAM is the built program: without it the environment's MMPKG, or out/mmpkg, or else the one that the gate left in
# crates/mm_cli/out. With WHOLE in the environment each growth of memory is refused and the power is cut ten times, else
# as many growths as three minutes allow, and three cuts.
set -u -o pipefail

# shellcheck source=scripts/outside/lib/program.sh
source "$(dirname "$0")/outside/lib/program.sh" "${1:-}"
cd "$top" || exit 2
folder=$(mktemp -d)
trap 'rm -rf "$folder"' EXIT
passed=0
failed=0
names=()
side_by_side=$(nproc)

# Installs Debian's packages of the commands and files that are missing, and names those that can't be had:
# COMMAND:PACKAGE ..
want() {
    local it updated=
    for it in "$@"; do
        has "$it" && continue
        [ -n "$updated" ] || apt-get update >"$folder/apt.log" 2>&1 || true
        updated=yes
        apt-get install -y --no-install-recommends "${it#*:}" >>"$folder/apt.log" 2>&1 || true
        has "$it" || echo "outside: could not get Debian's ${it#*:}"
    done
}

has() {
    [ -e "${1%%:*}" ] || command -v "${1%%:*}" >/dev/null
}

# Begins a command, as soon as fewer run than there are processors: NAME COMMAND ..
begin() {
    local name=$1 number=${#names[@]}
    shift
    names+=("$name")
    while [ "$(jobs -rp | wc -l)" -ge "$side_by_side" ]; do
        wait -n || true
    done
    timed "$number" "$@" &
}

# Runs a command, and leaves what it said, how it ended and its seconds: NUMBER COMMAND ..
timed() {
    local number=$1 began=$SECONDS status=0
    shift
    "$@" >"$folder/said.$number" 2>&1 </dev/null || status=$?
    echo "$status $((SECONDS - began))" >"$folder/ended.$number"
}

# Waits for all that was begun, and counts each by its status, but for 77, which says that what it needs is missing.
tell() {
    local number status seconds said
    wait
    for number in "${!names[@]}"; do
        said=$folder/said.$number
        read -r status seconds <"$folder/ended.$number" || status=1
        case $status in
        0)
            passed=$((passed + 1))
            echo "outside: ${names[number]}: ok ($seconds s): $(tail -n 1 "$said")"
            ;;
        77) echo "outside: ${names[number]}: not tried: $(tail -n 1 "$said")" ;;
        *)
            failed=$((failed + 1))
            cat "$said"
            echo "outside: ${names[number]}: FAILED"
            ;;
        esac
    done
    names=()
}

# The example's output is what examples/expected.txt has, with the name of its file in place of the path.
example() {
    scripts/example.sh "$folder/example.mmpkg" | sed "s|$folder/||g" >"$folder/example.txt" || return 1
    diff examples/expected.txt "$folder/example.txt" && echo "each line as in examples/expected.txt"
}

want sqlite3:sqlite3 curl:curl xxd:xxd cc:gcc strace:strace /usr/bin/python3:python3
# Peers: what needs one that can't be had is not tried.
modules=/usr/lib/python3/dist-packages
want gdalinfo:gdal-bin gdal2tiles.py:python3-gdal "$modules/osgeo:python3-gdal"
want "$modules/PIL:python3-pil" "$modules/piexif:python3-piexif"
want chromium:chromium firefox-esr:firefox-esr /usr/share/javascript/leaflet/leaflet.min.js:libjs-leaflet
want lintian:lintian debootstrap:debootstrap desktop-file-validate:desktop-file-utils
want qemu-system-x86_64:qemu-system-x86 modprobe:kmod busybox:busybox-static cpio:cpio
want /usr/sbin/mkfs.vfat:dosfstools mcopy:mtools
want shellcheck:shellcheck pyflakes3:pyflakes3 node:nodejs eslint:eslint tsc:node-typescript
begin 'the example' example
tell
cuts=(--cuts 3)
[ -z "${WHOLE:-}" ] || cuts=()
# The longest, so it begins first.
begin 'the page of a crew in Firefox' scripts/outside/crew/crew_page_check.py --browser firefox-esr
begin 'a power cut' scripts/outside/program/power_cut_check.py "${cuts[@]}"
begin 'the documents' scripts/outside/tree/check_docs.py
begin 'the tables of its file' scripts/outside/program/compare_schema.sh "$folder/example.mmpkg"
begin 'the page' scripts/outside/desk/page_curl.sh
begin 'the desk' scripts/outside/desk/desk_check.py
begin 'calls for files' scripts/outside/tree/file_calls_check.py
begin 'what a build leaves' scripts/outside/tree/build_check.py
begin 'the linters' scripts/outside/tree/lint.sh
begin 'the clock' scripts/outside/program/clock.sh
begin 'what waits for the disk' scripts/outside/program/syncs_check.py
begin 'a terminal' scripts/outside/program/terminal.py
begin 'refused growths of memory' scripts/outside/program/refuse_memory.py ${WHOLE:+--whole}
begin 'random lists' scripts/model/random_lists.py
begin 'the border to the standard' scripts/outside/border/border_check.py
begin 'maps by one command' scripts/outside/border/fill_check.py
begin 'maps beside a package' scripts/outside/border/maps_check.py
begin 'what lies on the way in' scripts/outside/border/way_in_test.py
begin 'what turns one package into another' scripts/outside/home/kit_between_check.py
begin 'out and home' scripts/outside/home/home_check.py
begin 'kills of out and home' scripts/outside/home/home_kills_check.py
begin 'what a homecoming does' scripts/outside/home/homecoming_test.py
begin 'weeks of an office' scripts/outside/home/weeks_check.py
begin 'nine tiles in a browser' scripts/outside/viewer/page_map.py
begin 'the viewer' scripts/outside/viewer/viewer_check.py
begin 'the viewer in Firefox' scripts/outside/viewer/viewer_check.py --browser firefox-esr
begin "the core of the crew's page" scripts/outside/page/page_core.sh
begin 'the page of a crew' scripts/outside/crew/crew_page_check.py
begin 'what drives the browsers' scripts/outside/lib/browsers_check.py
begin 'what a crew was told' scripts/outside/days/page_told_check.py
begin "days of a crew's page" scripts/outside/days/page_days.py --seconds 120
begin "days of a crew's page in Firefox" scripts/outside/days/page_days.py --browser firefox-esr --seconds 120
begin "the crew's command" scripts/outside/crew/crew_check.py
begin 'the day of a crew at the page' scripts/outside/days/crew_day_check.py
begin 'GDAL and QGIS live' scripts/outside/border/wmts_check.py
begin 'the day of a crew' scripts/outside/days/field_day_check.py
begin 'the Debian package' scripts/outside/program/deb_check.sh
tell
echo "$passed passed, $failed failed"
[ "$failed" = 0 ] && [ "$passed" -gt 0 ]
