#!/usr/bin/env bash
# Builds the program from this clone, makes a new package and runs the example lists on it, and prints what it did.
#
#     scripts/example.sh [FILE]
#
# FILE is the package to make; without it, one in a new folder of the system's. Where MMPKG names a built program, that
# one is run and nothing is built.
set -eu -o pipefail

file=$(realpath -m "${1:-$(mktemp -d)/example.mmpkg}")
cd "$(dirname "$0")/.."
if [ -z "${MMPKG:-}" ]; then
    setpriv --pdeathsig TERM scripts/build.sh
    MMPKG=$PWD/out/mmpkg
fi
mmpkg() {
    "$MMPKG" "$@"
}

# Prints the command, runs it, and prints its exit status.
show() {
    echo "\$ $1"
    local status=0
    eval "$1" || status=$?
    echo "(status $status)"
}

show "mmpkg init '$file'"
show "cat examples/systems.csv"
show "mmpkg run '$file' < examples/systems.csv"
show "cat examples/base_map.csv"
show "mmpkg run '$file' --at 0 < examples/base_map.csv"
show "cat examples/spring.csv"
show "mmpkg run '$file' --at 0 < examples/spring.csv"
show "cat examples/autumn/kit.csv"
show "echo edition,autumn | mmpkg run '$file' --at 0"
show "mmpkg kit '$file' autumn examples/autumn --at 0"
show "mmpkg kit '$file' autumn examples/autumn --at 0"
show "echo publish,autumn | mmpkg run '$file' --at 0"
show "mmpkg list '$file'"
show "mmpkg check '$file'"
show "ls '$file' '$file-wal'"
