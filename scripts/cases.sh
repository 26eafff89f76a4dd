#!/usr/bin/env bash
# Runs the transcripts of cases/ on both builds of the program that rt ci left in crates/mm_cli/out: on copies outside
# the repository, with no environment, and as nobody where this runs as root, as rt runs programs. The last line is 'N
# passed, M failed'.
#
#     scripts/cases.sh
set -u -o pipefail
cd "$(dirname "$0")/.." || exit 2
room=$(mktemp -d)
trap 'rm -rf "$room"' EXIT
chmod 777 "$room"
cp -r cases scripts/outside/program/cases.py scripts/outside/program/make_profile_1.py "$room"
python=/usr/bin/python3
[ -x "$python" ] || python=$(command -v python3)
as=()
[ "$(id -u)" != 0 ] || as=(setpriv --reuid=65534 --regid=65534 --clear-groups --no-new-privs)

status=0
for build in mm_cli mm_cli.by-rattle; do
    echo "cases: $build"
    if install -m 755 "crates/mm_cli/out/$build" "$room/$build"; then
        "${as[@]}" env -i PATH=/usr/bin:/bin TMPDIR="$room" LANG=C.UTF-8 \
            "$python" "$room/cases.py" "$room/$build" "$room/cases" </dev/null | tee "$room/said"
        [ "${PIPESTATUS[0]}" = 0 ] || status=1
    else
        echo "0 passed, 1 failed" | tee "$room/said"
        status=1
    fi
    tail -n 1 "$room/said" >>"$room/counts"
done
awk '/^[0-9]+ passed, [0-9]+ failed$/ {passed += $1; failed += $3; next} {failed += 1}
    END {print passed + 0 " passed, " failed + 0 " failed"}' "$room/counts"
exit "$status"
