#!/usr/bin/env bash
# What the linters say of whatever here isn't Rattle: shellcheck of the shell scripts, pyflakes of the Python ones,
# eslint of the page's script as it is joined, of what its modules take of each other and of its core's tests, tsc of
# the types that the core's comments tell. Each word of theirs fails.
#
#     apt-get install shellcheck pyflakes3 eslint node-typescript
#     scripts/outside/tree/lint.sh
#
# The last line is 'N passed, M failed'. Exit status: 0 all passed, 1 something failed, 77 no linter is there.
set -u -o pipefail
cd "$(dirname "$0")/../../.." || exit 2
passed=0
failed=0

# Counts a linter that is there by its status: COMMAND WORD ..
try() {
    command -v "$1" >/dev/null || return 0
    if "$@"; then passed=$((passed + 1)); else failed=$((failed + 1)); fi
}

mapfile -t scripts < <(
    find .ci bench examples packaging scripts tools -type f \( -name '*.sh' -o -path .ci/run \) ! -path '*/out/*' | sort
)
mapfile -t programs < <(find bench examples packaging scripts tools -type f -name '*.py' ! -path '*/out/*' | sort)
try shellcheck -S warning "${scripts[@]}"
try pyflakes3 "${programs[@]}"

# Debian's eslint and tsc find their parts where Debian's Node looks; another Node is told.
export NODE_PATH=${NODE_PATH:-/usr/share/nodejs}
rules='{no-undef: 2, no-unused-vars: 2, no-redeclare: [2, {builtinGlobals: false}], no-var: 2, prefer-const: 2,
    eqeqeq: 2, no-unreachable: 2, no-fallthrough: 2, no-dupe-keys: 2, no-self-compare: 2,
    no-cond-assign: [2, except-parens]}'
style=(--no-eslintrc --format unix --rule "$rules" --rule '{max-len: [2, 120]}')

# What eslint says of the page's script, which is joined of its modules.
lint_page() {
    python3 -B -c "import sys; sys.path.insert(0, 'tools'); import make_viewer; print(make_viewer.page_script())" |
        eslint "${style[@]}" --env browser,es6 --global L,BigInt,TextDecoderStream --parser-options ecmaVersion:2022 \
            --stdin --stdin-filename page.js
}

# What eslint says of the core by itself, and of its tests.
lint_core() {
    eslint "${style[@]}" --env es6 --global process,console,TextEncoder,Buffer \
        --parser-options ecmaVersion:2022,sourceType:module --ext .mjs tools/page scripts/outside/page
}

# What eslint says of what the page's modules take of each other: each piece of state is written by one of them.
lint_state() {
    local folder status=0
    folder=$(mktemp -d)
    cp tools/page/*.js "$folder"  # rules by file are for files beside them
    scripts/outside/tree/page_state.py >"$folder/rules.json" &&
        (cd "$folder" && eslint --no-eslintrc --format unix -c rules.json ./*.js) || status=1
    rm -r "$folder"
    return "$status"
}

command -v eslint >/dev/null && try lint_page && try lint_core && try lint_state
try tsc --noEmit --allowJs --checkJs --strict --target es2022 --lib es2022,dom --module es2022 --moduleResolution node \
    tools/page/*.mjs
if [ $((passed + failed)) = 0 ]; then
    echo "nothing was linted: apt-get install shellcheck pyflakes3 eslint node-typescript"
    exit 77
fi
echo "$passed passed, $failed failed"
[ "$failed" = 0 ]
