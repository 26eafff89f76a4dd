#!/usr/bin/env bash
# A first look in three minutes: the commands of scripts/example.sh, by the program as the toolchain compiles it with no
# proof. It is NOT the product: nothing is proved, each step is watched, and it runs some 300 times slower. What it
# prints is compared with examples/expected.txt.
#
#     scripts/first_look.sh
set -eu -o pipefail

cd "$(dirname "$0")/.."
room=$(mktemp -d)
trap 'rm -rf "$room"' EXIT
file=$room/example.mmpkg
mkdir "$room/cases"

# The program's commands, in their order: what is read from standard input, and the words.
case_of() { # INPUT WORD ..
    local name
    name=$(printf '%s/cases/%02d' "$room" "$(($(ls "$room/cases" | wc -l) / 3 + 1))")
    printf '%s' "$1" >"$name"
    printf '%s\n' "${@:2}" >"$name.args"
    expected "$((10#${name##*/}))" >"$name.stdout"
}

# What examples/expected.txt has below the Nth command that runs the program.
expected() { # N
    awk -v n="$1" '/^\$ / {runs = /mmpkg (init|run|kit|list|check)/; k += runs; on = k == n && runs; next}
        /^\(status / {on = 0} on' examples/expected.txt
}

case_of '' init "$file"
case_of "$(cat examples/systems.csv)" run "$file"
case_of "$(cat examples/base_map.csv)" run "$file" --at 0
case_of "$(cat examples/spring.csv)" run "$file" --at 0
case_of 'edition,autumn' run "$file" --at 0
case_of '' kit "$file" autumn "$PWD/examples/autumn" --at 0
case_of '' kit "$file" autumn "$PWD/examples/autumn" --at 0
case_of 'publish,autumn' run "$file" --at 0
case_of '' list "$file"
case_of '' check "$file"
cd crates/mm_cli
rt try --cases "$room/cases"
echo "A first look, with nothing proved: each command printed what examples/expected.txt has." \
    "scripts/example.sh builds and runs the product."
