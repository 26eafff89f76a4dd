#!/usr/bin/env bash
# Builds the program from this clone: proves it with all that stands below it, compiles it, and puts it at out/mmpkg. No
# crate of tests is proved, and none that the program doesn't stand on. What has not changed since is not proved again.
# out/build.log has what the toolchain said. What it starts ends with it, however it ends.
#
#     scripts/build.sh
set -eu -o pipefail

cd "$(dirname "$0")/.."
mkdir -p out
began=$SECONDS

# Says why nothing was built, and ends with a status: past 128 it was stopped by a signal, and that was said.
failed() {
    [ "$1" -lt 128 ] || exit "$1"
    tail -n 40 out/build.log >&2
    echo "mmpkg was not built: out/build.log has more" >&2
    exit 1
}

setpriv --pdeathsig TERM scripts/prove.py mm_cli || failed $?
# One pass checks, compiles, links and runs the program's own crate.
(cd crates/mm_cli && exec setpriv --pdeathsig TERM rt run --jobs "$(nproc)" -- --help) >>out/build.log 2>&1 || failed $?
cp crates/mm_cli/out/mm_cli out/mmpkg
echo "built out/mmpkg ($(((SECONDS - began) / 60)) minutes)"
