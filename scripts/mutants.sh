#!/usr/bin/env bash
# Tries the mutants: wrong bodies that the contracts refuse, as the edits of must-fail/ do, but too many for a gate that
# runs on each push. In a copy of the repository they take the place of the edits. Run it for a crate whose contracts
# changed, and for all before a release: half a minute of a processor each.
#
#     scripts/mutants.sh [--list] [CRATE ..]
#
# Without a name, all crates. With --list nothing is tried: each contract is named, with the edits and mutants that it
# has to refuse, as their first lines say. Exit status: 0 each was refused, or listed; 1 one was not refused; 2 there is
# no such crate or no mutant of it.
set -eu -o pipefail
cd "$(dirname "$0")/.."

# Prints 'CONTRACT: KIND/NAME of CRATE' of each wrong body, by rising contract: CRATE ..
list() {
    local crate
    for crate in "$@"; do
        find "crates/$crate" -path '*/out' -prune -o -name '*.edit' -exec grep -H -m 1 '^# contract: ' {} +
    done | sed -E 's|^crates/([^/]+)/([^/]+)/([^/]+)\.edit:# contract: (.*)$|\4: \2/\3 of \1|' | sort
}

if [ "${1:-}" = --list ]; then
    what=list
    shift
else
    what=try
fi
if [ $# = 0 ]; then
    mapfile -t crates < <(find crates -mindepth 2 -maxdepth 2 -name mutants -printf '%h\n' | sort | xargs -n 1 basename)
    set -- "${crates[@]}"
fi
for crate in "$@"; do
    if ! ls "crates/$crate"/mutants/*.edit >/dev/null 2>&1; then
        echo "$crate: there is no crates/$crate/mutants with an edit" >&2
        exit 2
    fi
done
if [ "$what" = list ]; then
    list "$@"
    exit
fi
copy=$(mktemp -d)
trap 'rm -rf "$copy"' EXIT
find crates -mindepth 2 -maxdepth 2 ! -name out -print0 | tar -c --null -T - crates.txt HANDLES | tar -x -C "$copy"
for crate in "$@"; do
    rm -rf "$copy/crates/$crate/must-fail"
    mv "$copy/crates/$crate/mutants" "$copy/crates/$crate/must-fail"
done
status=0
(cd "$copy" && rt must-fail "$@") || status=1
exit "$status"
