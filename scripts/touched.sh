#!/usr/bin/env bash
# Names the crates that changed since a commit, and those above them, each behind what it stands on.
#
#     scripts/touched.sh [COMMIT]      without it: origin's main
set -eu -o pipefail
cd "$(dirname "$0")/.."

since=${1:-origin/main}
changed=$({
    git diff --name-only "$since" -- crates
    git ls-files --others --exclude-standard crates
} | cut -d/ -f2 | sort -u)
# Crates in order, as `tsort` has them of the pairs of crates.txt; then each that changed or stands on one that is named
# already.
grep -E '^[a-z]' crates.txt |
    awk -F: '{
        split($1, name, " "); n = split($2, below, " ")
        print name[1], name[1]; for (i = 1; i <= n; i++) print below[i], name[1]
    }' | tsort |
    CHANGED=$changed awk '
        BEGIN {
            while ((getline line <"crates.txt") > 0) if (line ~ /^[a-z]/) {
                split(line, part, ":"); split(part[1], name, " "); below[name[1]] = part[2]
            }
            n = split(ENVIRON["CHANGED"], list, "\n"); for (i = 1; i <= n; i++) touched[list[i]] = 1
        }
        $1 in below {
            n = split(below[$1], list, " "); for (i = 1; i <= n; i++) if (list[i] in touched) touched[$1] = 1
            if ($1 in touched) print $1
        }'
