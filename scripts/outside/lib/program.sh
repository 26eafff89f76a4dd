# Read by the scripts of the shell that run the built program: sets `top`, the repository, and exports MMPKG, the
# program. It is the one that the word names, or else the environment's MMPKG, or else out/mmpkg, or else the one that
# the gate left, as checks.py finds it too. Ends with 2 where it isn't there.
# shellcheck shell=bash
top=$(cd "$(dirname "${BASH_SOURCE[0]}")/../../.." && pwd)
built=$top/out/mmpkg
[ -e "$built" ] || [ ! -e "$top/crates/mm_cli/out/mm_cli" ] || built=$top/crates/mm_cli/out/mm_cli
export MMPKG
MMPKG=$(realpath -m "${1:-${MMPKG:-$built}}")
if [ ! -x "$MMPKG" ]; then
    echo "$MMPKG isn't there: scripts/build.sh makes out/mmpkg" >&2
    exit 2
fi
