#!/usr/bin/env bash
# The moment of a run that names none, by a machine whose clock shows what this script says: a library in front of the C
# library's answers `clock_gettime`. A moment at the ends of the limits becomes the last_change; one outside them is
# `refused 11`, and a clock that can't be read is `fault 96`, both before the file is asked for, and behind the name of
# a kit's edition. Where a moment is given the clock makes no difference.
#
#     scripts/outside/program/clock.sh [PROGRAM]
set -eu -o pipefail

# shellcheck source=scripts/outside/lib/program.sh
source "$(dirname "$0")/../lib/program.sh" "${1:-}"
program=$MMPKG
for needed in cc sqlite3 curl; do
    command -v "$needed" >/dev/null || { echo "no $needed here"; exit 77; }
done
folder=$(mktemp -d)
trap 'rm -rf "$folder"' EXIT
cd "$folder"

cat >clock.c <<'C'
#include <errno.h>
#include <stdlib.h>
#include <time.h>

int clock_gettime(clockid_t id, struct timespec *at) {
    const char *said = getenv("CLOCK_SECONDS"), *rest = getenv("CLOCK_NANOSECONDS");
    (void)id;
    if (!said || !rest) {
        errno = EINVAL;
        return -1;
    }
    at->tv_sec = atoll(said);
    at->tv_nsec = atol(rest);
    return 0;
}
C
cc -shared -fPIC -o clock.so clock.c

# Runs a table's record on a new package by a clock: WANTED STATUS LAST_CHANGE SETTING.. [--at MOMENT]
run() {
    local wanted=$1 status=$2 change=$3 settings=() said stands got=0
    shift 3
    while [ $# -gt 0 ] && [ "$1" != --at ]; do
        settings+=("$1")
        shift
    done
    rm -f a.mmpkg a.mmpkg-wal
    "$program" init a.mmpkg
    cp a.mmpkg before.mmpkg
    said=$(echo table,spots,attributes,Spots |
        env "${settings[@]}" LD_PRELOAD="$folder/clock.so" "$program" run a.mmpkg "$@") || got=$?
    if [ "$said" != "$wanted" ] || [ "$got" != "$status" ]; then
        echo "${settings[*]} $*: '$said', status $got; wanted '$wanted', status $status"
        exit 1
    fi
    if [ "$change" = same ]; then
        cmp a.mmpkg before.mmpkg
    else
        stands=$(sqlite3 a.mmpkg 'SELECT last_change FROM gpkg_contents')
        if [ "$stands" != "$change" ]; then
            echo "${settings[*]} $*: the last_change is $stands; wanted $change"
            exit 1
        fi
    fi
}

# Runs the program by a clock on a file that is not there, which nothing makes: WANTED STATUS SETTING.. -- WORDS
run_without() {
    local wanted=$1 status=$2 settings=() said got=0
    shift 2
    while [ "$1" != -- ]; do
        settings+=("$1")
        shift
    done
    shift
    said=$(env "${settings[@]}" LD_PRELOAD="$folder/clock.so" "$program" "$@" </dev/null) || got=$?
    if [ "$said" != "$wanted" ] || [ "$got" != "$status" ] || [ -e none.mmpkg ]; then
        echo "${settings[*]} $*: '$said', status $got; wanted '$wanted', status $status, and no file"
        exit 1
    fi
}

run '1 ok' 0 1970-01-01T00:00:00.000Z CLOCK_SECONDS=0 CLOCK_NANOSECONDS=0
run '1 ok' 0 2001-09-09T01:46:40.999Z CLOCK_SECONDS=1000000000 CLOCK_NANOSECONDS=999999999
run '1 ok' 0 9999-12-31T23:59:59.999Z CLOCK_SECONDS=253402300799 CLOCK_NANOSECONDS=999999999
run 'refused 11' 1 same CLOCK_SECONDS=253402300800 CLOCK_NANOSECONDS=0
run 'refused 11' 1 same CLOCK_SECONDS=-1 CLOCK_NANOSECONDS=999999999
run 'fault 96' 3 same CLOCK_NANOSECONDS=0
run '1 ok' 0 1970-01-02T00:00:00.000Z CLOCK_SECONDS=0 CLOCK_NANOSECONDS=0 --at 86400000
run '1 ok' 0 1970-01-02T00:00:00.000Z CLOCK_NANOSECONDS=0 --at 86400000
run_without 'refused 11' 1 CLOCK_SECONDS=253402300800 CLOCK_NANOSECONDS=0 -- run none.mmpkg
run_without 'fault 96' 3 CLOCK_NANOSECONDS=0 -- run none.mmpkg
run_without 'not a package 94' 4 CLOCK_NANOSECONDS=0 -- run none.mmpkg --at 0
run_without 'refused 11' 1 CLOCK_SECONDS=-1 CLOCK_NANOSECONDS=0 -- kit none.mmpkg spring none
run_without 'fault 96' 3 CLOCK_NANOSECONDS=0 -- kit none.mmpkg spring none
run_without 'kit refused 0 12' 1 CLOCK_SECONDS=253402300800 CLOCK_NANOSECONDS=0 -- kit none.mmpkg Spring none
run_without 'kit refused 0 12' 1 CLOCK_NANOSECONDS=0 -- kit none.mmpkg Spring none
run_without 'not a package 94' 4 CLOCK_NANOSECONDS=0 -- check none.mmpkg

# A desk whose clock is outside answers no request, and says so.
rm -f a.mmpkg a.mmpkg-wal
"$program" init a.mmpkg >/dev/null
MMPKG_KEY=0123456789abcdef CLOCK_SECONDS=253402300800 CLOCK_NANOSECONDS=0 LD_PRELOAD="$folder/clock.so" \
    "$program" desk a.mmpkg --port "$((20000 + RANDOM % 10000))" --count 1 >said &
for _ in $(seq 600); do
    address=$(sed -n 's/^desk //p' said)
    [ -n "$address" ] && break
    sleep 0.1
done
curl -s -o answer "${address}contents" || true
wait "$!" && got=0 || got=$?
if [ "$(tail -n 1 said)" != 'page fault 96' ] || [ -s answer ] || [ "$got" != 0 ]; then
    echo "a desk whose clock is outside: '$(tail -n 1 said)', status $got;" \
        "wanted 'page fault 96', status 0, and no answer"
    exit 1
fi
echo "three moments, two outside the limits, a clock that can't be read, a moment that is given," \
    "what is asked before the clock and behind it, and a desk"
