#!/usr/bin/env bash
# What to run before a push, short of the gate: lays out what changed, tries the tests with no proof, looks through the
# documents, and then proves the crates that changed since a commit with those above them, runs the tests among them,
# and tries their edits.
#
#     scripts/ready.sh [COMMIT]      without it: origin's main
set -eu -o pipefail
cd "$(dirname "$0")/.."

since=${1:-origin/main}
scripts/fmt.sh "$since"
for crate in crates/mm_test_*/; do
    (cd "$crate" && rt try --test)
done
[ ! -x out/mmpkg ] || scripts/outside/tree/check_docs.py "$PWD/out/mmpkg"
mapfile -t touched < <(scripts/touched.sh "$since")
[ "${#touched[@]}" = 0 ] || scripts/prove.py "${touched[@]}"
edited=()
for crate in "${touched[@]}"; do
    [[ $crate != mm_test_* ]] || (cd "crates/$crate" && rt test)
    [ ! -d "crates/$crate/must-fail" ] || edited+=("$crate")
done
[ "${#edited[@]}" = 0 ] || rt must-fail "${edited[@]}"
