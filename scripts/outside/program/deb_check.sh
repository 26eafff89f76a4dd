#!/usr/bin/env bash
# The Debian package in a fresh Debian: built, looked at by lintian, installed, used and removed. The last
# line is 'N passed, M failed'.
#
#     scripts/outside/program/deb_check.sh [PROGRAM]
#
# The fresh Debian (bookworm, minbase, with python3, libjs-leaflet and curl) is made by debootstrap, which takes a
# minute or two, and kept packed in a folder of the system's for such files, so that the next look takes seconds. Exit
# status: 0 all passed, 1 something failed, 2 the program isn't there, 77 it can't be made, and nothing was tried: that
# wants root, Debian's dpkg-dev, lintian and debootstrap, and its servers.
set -u -o pipefail

# shellcheck source=scripts/outside/lib/program.sh
source "$(dirname "$0")/../lib/program.sh" "${1:-}"
cd "$top" || exit 1
kept=${TMPDIR:-/tmp}/mmpkg-debian-$(id -u)
folder=$(mktemp -d)
trap 'rm -rf "$folder"' EXIT
root=$folder/root
passed=0
failed=0

not_tried() {
    echo "$*"
    exit 77
}

try() {
    local name=$1
    shift
    if "$@" >"$folder/said" 2>&1; then
        passed=$((passed + 1))
        echo "ok: $name"
    else
        failed=$((failed + 1))
        cat "$folder/said"
        echo "FAILED: $name"
    fi
}

# Makes the fresh Debian, or unpacks the one that was kept.
make_debian() {
    local with=python3,libjs-leaflet,curl mirror
    install -d -m 700 "$kept" && [ -O "$kept" ] || return 1
    if [ ! -e "$kept/bookworm.tar" ]; then
        mirror=$(apt-get indextargets --format '$(REPO_URI)' 'Created-By: Packages' 'Codename: bookworm' | head -n 1)
        timeout 600 debootstrap --variant=minbase --include="$with" bookworm "$folder/made" "$mirror" || return 1
        rm -f "$folder"/made/var/cache/apt/archives/*.deb
        tar -C "$folder/made" -cf "$kept/.part" . && mv "$kept/.part" "$kept/bookworm.tar" || return 1
        rm -rf "$folder/made"
    fi
    mkdir "$root" && tar -C "$root" -xf "$kept/bookworm.tar"
}

inside() {
    env -i PATH=/usr/sbin:/usr/bin:/sbin:/bin LC_ALL=C.UTF-8 HOME=/root chroot "$root" "$@"
}

# All that stands in the fresh Debian, but what dpkg keeps of its own work.
list_files() {
    local own=(\( -path "$root/var/lib/dpkg" -o -path "$root/var/log" -o -path "$root/clone" \))
    find "$root" -xdev "${own[@]}" -prune -o -printf '%P %m %s\n' | grep -v '^\(var/lib\|var\|\) ' | sort
}

build() {
    package=$(scripts/deb.sh | sed -n 's/^packed //p') && [ -n "$package" ] || return 1
    cp "$package" "$folder/first.deb"
    scripts/deb.sh && cmp "$package" "$folder/first.deb"
}

# Each library of the kit that the program stands on has its licence told; those below them where the kit is there.
licences() {
    local kit name named
    kit=$(dirname "$(dirname "$(realpath "$(command -v rt || echo /)")")")
    named=$(sed -n '/^# Tests/q; s/^[a-z_]*: //p' crates.txt | tr ' ' '\n' | sort -u)
    for name in $named; do
        [ -d "crates/$name" ] || echo "$name"
        [ ! -d "$kit/rlibs/$name.rlib/below" ] || ls "$kit/rlibs/$name.rlib/below"
    done | sort -u >"$folder/libraries"
    while read -r name; do
        grep -q "kit/$name/\*" packaging/copyright || { echo "packaging/copyright doesn't name $name" && return 1; }
    done <"$folder/libraries"
    [ -s "$folder/libraries" ]
}

install_package() {
    list_files >"$folder/before"
    cp "$package" "$root/mmpkg.deb"
    inside dpkg -i /mmpkg.deb && rm "$root/mmpkg.deb" && cmp "$MMPKG" "$root/usr/bin/mmpkg"
}

# A package of a later day is a newer one to dpkg and apt, which leave an equal version as it is.
is_newer() {
    local day newer
    day=$(dpkg-deb -f "$package" Version | sed 's/.*+//')
    newer=$(SOURCE_DATE_EPOCH=$(date -ud "$day + 1 day" +%s) scripts/deb.sh | sed -n 's/^packed //p')
    [ -n "$newer" ] && mv "$newer" "$folder/newer.deb"
    dpkg --compare-versions "$(dpkg-deb -f "$folder/newer.deb" Version)" gt "$(dpkg-deb -f "$package" Version)"
}

# Each command of the package answers --help and has a page.
commands() {
    local name page count=0
    for name in $(inside dpkg -L mmpkg | sed -n 's|^/usr/bin/||p'); do
        page=$root/usr/share/man/man1/$name.1.gz
        inside "$name" --help >"$folder/help" && [ -s "$folder/help" ] && gzip -t "$page" || return 1
        ! man --warnings -l "$page" 2>&1 >/dev/null | grep . || return 1
        count=$((count + 1))
    done
    echo "$count commands"
    [ "$count" -ge 4 ]
}

# The tours of the documents, by the program of the path and with the examples of the package.
tours() {
    mkdir -p "$root/clone/scripts" "$root/clone/docs"
    zcat "$root/usr/share/doc/mmpkg/README.md.gz" >"$root/clone/README.md"
    zcat "$root/usr/share/doc/mmpkg/docs/USING.md.gz" >"$root/clone/docs/USING.md"
    cp -r scripts/outside "$root/clone/scripts/"
    ln -s /usr/share/doc/mmpkg/examples "$root/clone/examples"
    ln -s /usr/share/mmpkg "$root/clone/tools"
    inside python3 -B /clone/scripts/outside/tree/check_docs.py /usr/bin/mmpkg --tours
}

# A package goes out to the standard and in again, by the commands alone.
there_and_back() {
    inside sh -euc '
        cd "$(mktemp -d)"
        trap "rm -r \"\$PWD\"" EXIT
        examples=/usr/share/doc/mmpkg/examples
        mmpkg init a.mmpkg
        cat $examples/systems.csv $examples/base_map.csv $examples/spring.csv | mmpkg run a.mmpkg --at 0 || [ $? = 1 ]
        mmpkg-export a.mmpkg out.gpkg
        mmpkg-import out.gpkg list.csv
        mmpkg init b.mmpkg
        mmpkg run b.mmpkg --at 0 <list.csv
        mmpkg list a.mmpkg | grep -v ^edition >a
        mmpkg list b.mmpkg >b
        cmp a b && test -s a'
}

# What a desktop finds: an entry whose command is there, and the type of packages.
desktop() {
    local entry=$root/usr/share/applications/mmpkg-crew.desktop type
    type=$(sed -n 's/.*mime-type type="\([^"]*\)".*/\1/p' "$root/usr/share/mime/packages/mmpkg.xml")
    [ -x "$root/usr/bin/$(sed -n 's/^Exec=\([^ ]*\).*/\1/p' "$entry")" ] || return 1
    grep -q "^MimeType=$type;$" "$entry" || return 1
    ! command -v desktop-file-validate >/dev/null || ! desktop-file-validate "$entry" | grep .
}

# As a new user: from the installed package to a row with a photo on the map, in this machine's browser.
first_minute() {
    command -v chromium >/dev/null || { echo "chromium isn't there" && return 0; }
    scripts/outside/program/first_minute.py "$root"
}

remove() {
    inside dpkg --purge mmpkg && list_files | diff "$folder/before" -
}

[ "$(id -u)" = 0 ] || not_tried "a fresh Debian wants root"
for it in dpkg-shlibdeps:dpkg-dev lintian:lintian debootstrap:debootstrap man:man-db \
    /usr/lib/python3/dist-packages/PIL:python3-pil; do
    [ -e "${it%%:*}" ] || command -v "${it%%:*}" >/dev/null && continue
    apt-get install -y --no-install-recommends "${it#*:}" >"$folder/said" 2>&1 || not_tried "${it#*:} isn't there"
done
make_debian >"$folder/said" 2>&1 || not_tried "no fresh Debian: $(tail -n 1 "$folder/said")"
try 'the package is built, twice the same' build
try 'lintian has no error and no warning' lintian --allow-root --fail-on error,warning "${package:-}"
try 'the licence of each library is told' licences
try 'the package is installed, with the program as it was built' install_package
try 'a package of a later day is newer' is_newer
try 'each command answers --help, and has a page' commands
try 'the tours of the documents' tours
try 'a package goes out and in by the tools' there_and_back
try 'a desktop opens packages by the crew'"'"'s command' desktop
try 'a row with a photo stands on the map within a minute' first_minute
try 'purged, it leaves nothing' remove
echo "$passed passed, $failed failed"
[ "$failed" = 0 ]
