#!/usr/bin/env bash
# Tries every test, case and program of crates/ as they stand, without proving anything: for whoever changed a line and wants to
# know within minutes whether something that ran before still runs. `rt ci` alone says that it is right.
#
# usage: quick.sh [NAME..]
#
# NAME is a crate; without one all that have tests or are programs. Each is built anew with run-time checks, as many at once as
# there are processors; crates of tests are built together, each as a module of one crate, since building what they stand on takes
# most of the time. A test that hangs fails after a minute. Those that stop a whole game at each call of its disk take minutes
# with such checks: they are left out, and named. A line a build says what came of it, and of one that failed its output follows.
# The exit code is 0 where none failed.
cd "$(dirname "$0")/.." || exit 2
command -v rt > /dev/null || { echo "quick.sh: there is no rt here: see README.md" >&2; exit 2; }
logs=$(mktemp -d)
trap 'rm -rf "$logs"' EXIT
long='a_whole_game_outlives_stops_in_its_'

# Whether a crate has tests.
has_tests() {
    grep -qr '#\[test\]' "crates/$1/src"
}

# Which crates of tests a crate is built with: those whose tests wait for other threads, or the others.
kind_of_tests() {
    if grep -q "^$1 .*Wait" crates.txt; then echo waiting; else echo others; fi
}

# Copies the sources to a folder, in which a crate of joined tests can stand beside them.
copy_sources() {
    git init -q "$1"
    cp HANDLES crates.txt "$1"
    for part in crates/*/src crates/*/specs crates/*/proofs; do
        [ ! -d "$part" ] || { mkdir -p "$1/$(dirname "$part")" && cp -r "$part" "$1/$part"; }
    done
}

# In such a folder makes a crate in which the tests of some crates are a module each, but the long ones, as in:
# join_tests FOLDER CRATE NAME..
join_tests() {
    local root=$1 joined=$2 name libraries=
    shift 2
    mkdir -p "$root/crates/$joined/src"
    echo '#![tactic(auto)]' > "$root/crates/$joined/src/lib.rt"
    for name in "$@"; do
        cp -r "crates/$name/src" "$root/crates/$joined/src/$name"
        mv "$root/crates/$joined/src/$name/lib.rt" "$root/crates/$joined/src/$name/mod.rt"
        sed -i "s/\bcrate::/crate::$name::/g; /^#!\[tactic/d" "$root/crates/$joined/src/$name"/*.rt
        sed -i "/^#\[test\]\$/{N;/\nfn $long/{:a;N;/\n}\$/!ba;d}}" "$root/crates/$joined/src/$name"/*.rt
        printf '#[cfg(test)]\nmod %s;\n' "$name" >> "$root/crates/$joined/src/lib.rt"
        libraries+=" $(sed -n "s/^$name\( [^:]*\)\?://p" crates.txt)"
    done
    echo "$joined tests_may=Threads+Wait: $(tr -s ' ' '\n' <<< "$libraries" | sort -u | tr '\n' ' ')" >> "$root/crates.txt"
}

# Runs the tests of crates of a kind.
try_tests() {
    local kind=$1
    shift
    copy_sources "$logs/$kind.sources" && join_tests "$logs/$kind.sources" "${kind}_tests" "$@" || return 1
    (cd "$logs/$kind.sources/crates/${kind}_tests" && rt try --test --seconds 60)
}

# Runs a program on what it is run on in the gate, and compares what it writes with what it must.
try_program() {
    local crate=crates/$1 input=/dev/null data=() words=()
    [ -f "$crate/stdin" ] && input=$crate/stdin
    [ -f "$crate/args" ] && mapfile -t words < "$crate/args"
    for file in "$crate"/data/*; do
        [ -f "$file" ] && data+=(--data "$(basename "$file")=data/$(basename "$file")")
    done
    input=$(realpath "$input")
    (cd "$crate" && rt try --seconds 300 --steps 1 "${data[@]}" -- "${words[@]}" < "$input") > "$logs/$1.out" 2>&1
    # (behind what the program wrote stand three lines of the try)
    if head -n "$(wc -l < "$crate/stdout")" "$logs/$1.out" | cmp -s - "$crate/stdout" && grep -q '^checked: ended status=0' "$logs/$1.out"; then
        return 0
    fi
    diff "$crate/stdout" "$logs/$1.out"
    return 1
}

# Tries crates, given as one word, by a call that keeps its logs under a name, and says in a line how that ended.
report() {
    local crates=$1 name=$2 start=$SECONDS
    shift 2
    if "$@" > "$logs/$name" 2>&1; then
        echo "$crates: ok, $((SECONDS - start)) s"
    else
        echo "$crates: FAILED"
        cat "$logs/$name"
        touch "$logs/failed"
    fi
}

names=("$@")
[ $# -gt 0 ] || mapfile -t names < <(basename -a crates/*/)
declare -A tests=()
programs=()
for name in "${names[@]}"; do
    if has_tests "$name"; then
        tests[$(kind_of_tests "$name")]+=" $name"
    elif [ -f "crates/$name/src/main.rt" ]; then
        programs+=("$name")
    fi
done
for kind in "${!tests[@]}"; do
    read -ra crates <<< "${tests[$kind]}"
    report "${crates[*]}" "$kind" try_tests "$kind" "${crates[@]}" &
done
for name in "${programs[@]}"; do
    while [ "$(jobs -rp | wc -l)" -ge "$(nproc)" ]; do wait -n; done
    report "$name" "$name" try_program "$name" &
done
wait
for name in "${names[@]}"; do
    sed -n "s/^fn \(${long}[a-z_]*\).*/left out: $name, \1/p" "crates/$name/src"/*.rt
done
[ ! -e "$logs/failed" ]
