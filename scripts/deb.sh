#!/usr/bin/env bash
# Packs the built program, the tools, manual pages and documents as a Debian package, out/mmpkg_VERSION_amd64.deb.
#
#     scripts/deb.sh
#
# The program is the one that MMPKG names, else out/mmpkg, and goes in byte for byte: it is the one that was proved and
# tested, so it is neither stripped nor built again. Its version stands in crates/mm_arguments/src/texts.rt; the program
# has to print the same, and CHANGELOG.md to begin with it. VERSION has a day behind it, 0.2+20261129, so that a newer
# package takes the place of an older: that of SOURCE_DATE_EPOCH, else of the last commit, and never the clock's. Tools
# that are not there are named and left out. Wants Debian's dpkg-dev and python3.
set -eu -o pipefail

cd "$(dirname "$0")/.."
program=$(realpath -m "${MMPKG:-out/mmpkg}")
maintainer='Jamdozyr maintainers <maintainers@users.noreply.jamdozyr.example>'
folder=$(mktemp -d)
trap 'rm -rf "$folder"' EXIT
root=$folder/root
documents=$root/usr/share/doc/mmpkg

fail() {
    echo "$*" >&2
    exit 1
}

# By a command's name, the tool that it is.
declare -A tools=(
    [mmpkg-come-home]=come_home.py
    [mmpkg-crew]=crew.py
    [mmpkg-fill]=fill.py
    [mmpkg-hand-out]=hand_out.py
    [mmpkg-import]=import_standard.py
    [mmpkg-export]=export_standard.py
    [mmpkg-kit]=make_kit.py
    [mmpkg-kit-between]=kit_between.py
    [mmpkg-repair-gis]=repair_gis.py
    [mmpkg-viewer]=make_viewer.py
)

# Sets the program's version, which all that tells it has to agree on, the time that the files get, and the package's
# version, which tells that day.
find_version() {
    local whole first
    whole=$(sed -n 's/.*VERSION: &str = "\(.*\)";/\1/p' crates/mm_arguments/src/texts.rt)
    version=${whole%% *}
    [ -x "$program" ] || fail "$program isn't there: scripts/build.sh makes out/mmpkg, or MMPKG names the program"
    [ "$("$program" --version)" = "mmpkg $whole" ] || fail "$program is not of version $whole"
    first=$(sed -n '/^## /{p;q}' CHANGELOG.md)
    [[ $first =~ ^"## $version ("[0-9-]+")"$ ]] || fail "CHANGELOG.md doesn't begin with $version and its day"
    SOURCE_DATE_EPOCH=${SOURCE_DATE_EPOCH:-$(git -c safe.directory="$PWD" log -1 --format=%ct)} ||
        fail "no commit tells the day of the package, nor does SOURCE_DATE_EPOCH"
    export SOURCE_DATE_EPOCH
    of_day=$version+$(date -ud "@$SOURCE_DATE_EPOCH" +%Y%m%d)
}

# Puts the program and the commands that stand into the package. Nothing is written beside the tools when they run (-B).
put_programs() {
    local name
    commands=()
    install -D "$program" "$root/usr/bin/mmpkg"
    install -d "$root/usr/share/mmpkg"
    find tools -maxdepth 1 -type f ! -name '.*' -exec install -m 644 {} "$root/usr/share/mmpkg/" \;
    install -d "$root/usr/share/mmpkg/page"
    install -m 644 tools/page/* "$root/usr/share/mmpkg/page/"
    for name in $(printf "%s\n" "${!tools[@]}" | sort); do
        if [ ! -e "tools/${tools[$name]}" ]; then
            echo "left out: $name: tools/${tools[$name]} isn't there" >&2
            continue
        fi
        commands+=("$name")
        cat >"$root/usr/bin/$name" <<END
#!/bin/sh
command -v python3 >/dev/null || { echo "$name: wants python3: apt-get install python3" >&2; exit 2; }
exec python3 -B /usr/share/mmpkg/${tools[$name]} "\$@"
END
        chmod 755 "$root/usr/bin/$name"
    done
}

# What a desktop opens packages with: their type by its name, and the crew's command.
put_desktop() {
    install -D -m 644 packaging/mmpkg-crew.desktop "$root/usr/share/applications/mmpkg-crew.desktop"
    install -D -m 644 packaging/mmpkg.xml "$root/usr/share/mime/packages/mmpkg.xml"
}

put_pages() {
    local pages=$root/usr/share/man/man1 name
    install -d "$pages"
    packaging/documents.py program mmpkg "$program" "$version" "${commands[@]}" >"$pages/mmpkg.1"
    for name in "${commands[@]}"; do
        packaging/documents.py tool "$name" "tools/${tools[$name]}" "$version" mmpkg >"$pages/$name.1"
    done
    gzip -9n "$pages"/*.1
}

put_documents() {
    install -d "$documents/docs"
    install -m 644 README.md packaging/copyright "$documents/"
    install -m 644 docs/*.md docs/*.png "$documents/docs/"
    # But for the examples that run the tools of a clone.
    cp -r examples "$documents/examples"
    rm -r "$documents/examples/border/run.sh" "$documents/examples/field_day"
    find "$documents/examples" -type f ! -perm /111 -exec chmod 644 {} +
    packaging/documents.py changelog "$maintainer" "$of_day" >"$documents/changelog"
    gzip -9n "$documents/changelog" "$documents"/docs/*.md "$documents/README.md"
    install -D -m 644 packaging/overrides "$root/usr/share/lintian/overrides/mmpkg"
}

# What the program's libraries come from, as dpkg-shlibdeps finds it; nothing where it has none.
libraries() {
    mkdir -p "$folder/source/debian"
    printf 'Source: mmpkg\n\nPackage: mmpkg\nArchitecture: amd64\n' >"$folder/source/debian/control"
    (cd "$folder/source" && dpkg-shlibdeps -O "$root/usr/bin/mmpkg") | sed -n 's/^shlibs:Depends=/Depends: /p'
}

put_control() {
    install -d "$root/DEBIAN"
    {
        printf 'Package: mmpkg\nVersion: %s\nArchitecture: amd64\nMaintainer: %s\n' "$of_day" "$maintainer"
        printf 'Installed-Size: %s\n' "$(du -sk --apparent-size "$root" | cut -f 1)"
        libraries
        cat packaging/control
    } >"$root/DEBIAN/control"
    (cd "$root" && find usr -type f -print0 | sort -z | xargs -0 md5sum) >"$root/DEBIAN/md5sums"
    chmod 644 "$root"/DEBIAN/*
}

umask 022
find_version
put_programs
put_desktop
put_pages
put_documents
put_control
find "$root" -type d -exec chmod 755 {} +
find "$root" -exec touch -hd "@$SOURCE_DATE_EPOCH" {} +
made=out/mmpkg_${of_day}_amd64.deb
mkdir -p out
dpkg-deb --root-owner-group -Zxz --build "$root" "$folder/made.deb" >/dev/null
mv "$folder/made.deb" "$made.part"
mv "$made.part" "$made"
echo "packed $made"
