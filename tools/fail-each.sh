#!/usr/bin/env bash
# Makes what a run of the program asks the system for fail, one call at a time: each request for memory, each read and write, and
# each read or write of several bytes, which then moves one alone; after the first calls of a run ever fewer of them. Every run has
# to answer: to end by itself, and either well, with all that the run without a failure writes, or with the exit code of what
# failed: 5 where memory was wanting and 3 where a read failed, and nothing is written then, 4 where a write failed, and what is
# written then is a prefix of it. A game that is served has such requests for memory too, while players come until it has ended
# and leave once they are greeted. No part of the gate.
#
# usage: fail-each.sh [PROGRAM]
#
# PROGRAM is the built riichi_table; without it that of this repository, where it is built. It takes some minutes, and a C
# compiler. A line a run and kind says how many calls were made to fail, with how many of each exit code; the script's own exit
# code is 0 where each run answered.
cd "$(dirname "$0")/.." || exit 1
program=${1:-crates/riichi_table/out/riichi_table}
if [ ! -x "$program" ]; then
    echo "$program is no program that can be run" >&2
    exit 2
fi
folder=$(mktemp -d)
trap 'rm -rf "$folder"' EXIT
"${CC:-cc}" -shared -fPIC -O1 -o "$folder/fails.so" tools/fail-each.c || exit 2

# One run, with what it reads, in which this call of its kind fails.
fail_one() {
    local kind=$1 at=$2 input=$3
    shift 3
    rm -f "$folder/mark"
    timeout 300 env FAIL_KIND="$kind" FAIL_AT="$at" FAIL_MARK="$folder/mark" LD_PRELOAD="$folder/fails.so" \
        "$program" "$@" < "$input" > "$folder/out" 2> "$folder/err"
}

# Whether the run answered that has ended so, by a call of this kind: with what the whole run writes, or with the code of what failed
# and a prefix of that.
has_answered() {
    case "$1/$2" in
        */0) cmp -s "$folder/out" "$folder/whole" ;;
        memory/5 | io/3) [ ! -s "$folder/out" ] ;;
        io/4) cmp -s -n "$(stat -c %s "$folder/out")" "$folder/out" "$folder/whole" ;;
        *) false ;;
    esac
}

# Lets the calls of one kind fail in turn, from the first to the last, by a run of this sort; after so many of them each time one
# more is left out.
fail_each() {
    local run=$1 kind=$2 input=$3 each=$4 at=0 status runs=0 faulted=0
    local -A codes=()
    shift 4
    while :; do
        at=$((at + at / each + 1))
        "$run" "$kind" "$at" "$input" "$@"
        status=$?
        [ -e "$folder/mark" ] || break
        runs=$((runs + 1))
        codes[$status]=$((${codes[$status]:-0} + 1))
        has_answered "$kind" "$status" && continue
        faulted=$((faulted + 1))
        echo "call $at of $kind: exit code $status" >&2
    done
    echo "$* · $kind: $runs made to fail, $((runs - faulted)) answered, $faulted faulted;$(for code in "${!codes[@]}"; do echo -n " ${codes[$code]} with code $code"; done)"
    [ "$faulted" -eq 0 ] || failed=1
}

# A run, with what it reads, in which the calls of each kind fail in turn.
fail_all() {
    local input=$1
    shift
    "$program" "$@" < "$input" > "$folder/whole" 2> /dev/null
    for kind in memory io short; do
        fail_each fail_one "$kind" "$input" 200 "$@"
    done
}

# Lets players come to the port that ask for a seat and leave once they are greeted, until the server has ended.
come_and_leave() {
    local number=0 hello
    while [ ! -e "$folder/ended" ]; do
        number=$((number + 1))
        {
            echo "{\"type\":\"join\",\"name\":\"p$number\"}" >&0
            read -r -t 1 hello
        } 2> /dev/null 0<> /dev/tcp/127.0.0.1/11611
        sleep 0.02
    done 2> /dev/null
}

# A game that is served to such players; in what it writes the names stand that came first.
serve_one() {
    rm -f "$folder/ended"
    come_and_leave &
    "$@"
    local status=$?
    touch "$folder/ended"
    wait
    sed -i '/^{"type":"start_game"/s/"names":.*/"names":?}/' "$folder/out"
    return $status
}

# Such a game in which a call fails.
fail_served() {
    serve_one fail_one "$@"
}

# Such a game in which the requests for memory fail in turn.
fail_serving() {
    local words=(serve --seed "$(printf '07%.0s' {1..32})" --limit 1 --port 11611)
    serve_one "$program" "${words[@]}" > "$folder/out" 2> /dev/null
    mv "$folder/out" "$folder/whole"
    fail_each fail_served memory /dev/null 20 "${words[@]}"
}

failed=0
fail_all crates/riichi_table/stdin referee 0
fail_all tools/fail-each/self_played_record replay
fail_all /dev/null hand 1m 2m 3m 4p 5p 6p 7s 8s 9s E E S S
fail_serving
exit $failed
