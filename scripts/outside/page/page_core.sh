#!/usr/bin/env bash
# The core of the crew's page (tools/page/*.mjs) without a browser, by Node's own runner: what it reckons, and random
# days of its outbox against a package whose answers are cut, and to which others write.
#
#     apt-get install nodejs
#     [DAYS=20000] [SEED=1] scripts/outside/page/page_core.sh
#
# DAYS is how many random days there are, SEED the first of them. The last line is 'N passed, M failed'. Exit status: 0
# all passed, 1 something failed, 77 Node isn't there.
set -u -o pipefail
cd "$(dirname "$0")" || exit 2

if ! command -v node >/dev/null; then
    echo "the page's core wasn't tried: apt-get install nodejs"
    exit 77
fi
said=$(node --test --test-reporter=tap ./*.test.mjs 2>&1)
passed=$(sed -n 's/^# pass //p' <<<"$said")
failed=$(sed -n 's/^# fail //p' <<<"$said")
[ "$failed" = 0 ] && [ "${passed:-0}" -gt 0 ] || printf '%s\n' "$said"
echo "${passed:-0} passed, ${failed:-1} failed"
[ "$failed" = 0 ] && [ "${passed:-0}" -gt 0 ]
