#!/usr/bin/env bash
# Lays out the crates that git says have changed since a commit, or all, as the gate wants them.
#
#     scripts/fmt.sh [all|COMMIT]      without a word: what is not committed
set -eu -o pipefail
cd "$(dirname "$0")/.."

if [ "${1:-}" = all ]; then
    mapfile -t crates < <(sed -n 's/^\([a-z_0-9]*\)[^:#]*:.*/\1/p' crates.txt)
else
    mapfile -t crates < <({
        git diff --name-only "${1:-HEAD}" -- crates
        git ls-files --others --exclude-standard crates
    } | cut -d/ -f2 | sort -u)
fi
for crate in "${crates[@]}"; do
    [ ! -d "crates/$crate" ] || (cd "crates/$crate" && rt fmt)
done
