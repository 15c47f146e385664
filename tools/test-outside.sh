#!/usr/bin/env bash
# Tests what stands outside crates/: the example players, the bridge, the league, the viewer, the libraries for a page, for C and for
# Python and the release, and checks the types of their Python. It proves nothing.
#
# usage: test-outside.sh [PROGRAM]
#
# PROGRAM is the built riichi_table; without it that of this repository, where it is built. What is skipped for want of
# python3, mypy, chromium, the program or the shared library (RIICHI_TABLE_LIBRARY, or what bindings/c/build.sh has built)
# is said. A file of tests that fails is run once more, since these play by the clock of a machine that may have other work:
# that it failed is said with what it wrote, and counted on the last line. The exit code is 0 where each file passed in the
# end.
cd "$(dirname "$0")/.." || exit 1
program=${1:-crates/riichi_table/out/riichi_table}
export PYTHONDONTWRITEBYTECODE=1

# The Python that `mypy --strict` takes, as patterns, and the folders that it imports from.
TYPED="examples/*.py examples/tests/*.py league/*.py league/tests/*.py viewer/*.py viewer/tests/*.py bindings/page/tests/*.py bindings/c/tests/*.py bindings/python/*.py bindings/python/*/*.py tools/*.py tools/tests/*.py"
export MYPYPATH=examples:examples/tests:league:viewer:viewer/tests:bindings/python

# The files of tests, and the seconds that each may take.
TESTS='
120 examples/tests/test_players.py
400 examples/tests/test_bridge.py
900 examples/tests/test_customs.py
300 examples/tests/test_play.py
200 examples/tests/test_serve.py
200 examples/tests/test_tables.py
120 league/tests/test_export.py
60 league/tests/test_results.py
60 league/tests/test_schedule.py
60 league/tests/test_split.py
400 league/tests/test_league.py
400 league/tests/test_faults.py
400 league/tests/test_cluster.py
300 tools/tests/test_release.py
400 tools/tests/test_host.py
900 viewer/tests/test_viewer.py
120 bindings/page/tests/test_page.py
400 bindings/c/tests/test_c.py
400 bindings/python/tests/test_bindings.py
'

say() {
    echo "outside crates/: $*"
}

if ! command -v python3 > /dev/null; then
    say "all tests are skipped, since there is no python3"
    exit 0
fi
if [ -x "$program" ]; then
    RIICHI_TABLE=$(realpath "$program")
    export RIICHI_TABLE
elif [ $# -gt 0 ]; then
    say "$program is no program that can be run" >&2
    exit 2
else
    unset RIICHI_TABLE
fi

built=bindings/c/out/lib/libriichi_table.so
if [ -z "$RIICHI_TABLE_LIBRARY" ] && [ -f $built ]; then
    RIICHI_TABLE_LIBRARY=$(realpath $built)
    export RIICHI_TABLE_LIBRARY
fi

passed=0 failed=() again=()
log=$(mktemp)
trap 'rm -f "$log"' EXIT

# Runs a command for at most so many seconds; what it writes is in the log, how long it took in $took.
try() {
    local since=$SECONDS status
    timeout "$1" "${@:2}" > "$log" 2>&1
    status=$?
    took="$((SECONDS - since)) s"
    [ $status -ne 124 ] || echo "it took more than $1 seconds" >> "$log"
    return $status
}

check_types() {
    if ! command -v mypy > /dev/null; then
        say "the types are skipped, since there is no mypy"
    elif try 300 mypy --strict --cache-dir=/dev/null $TYPED; then
        passed=$((passed + 1))
        say "types: $(tail -n 1 "$log"), $took"
    else
        failed+=("types")
        say "types FAILED, $took"
        cat "$log"
    fi
}

test_file() {
    if ! try "$1" python3 "$2" -v; then
        again+=("$2")
        say "$2 FAILED at its first try, $took"
        cat "$log"
        if ! try "$1" python3 "$2" -v; then
            failed+=("$2")
            say "$2 FAILED at its second try, $took"
            cat "$log"
            return
        fi
    fi
    passed=$((passed + 1))
    say "$2: $(grep '^Ran ' "$log"), $(tail -n 1 "$log")"
    sed -n "s/.* skipped ['\"]\(.*\)['\"]$/    skipped: \1/p" "$log" | sort -u
}

check_types
while read -r seconds file; do
    [ -z "$file" ] || test_file "$seconds" "$file"
done <<< "$TESTS"

say "$passed passed, ${#failed[@]} failed${failed:+ (${failed[*]})}, ${#again[@]} failed at the first try${again:+ (${again[*]})}, $SECONDS s"
[ ${#failed[@]} -eq 0 ]
