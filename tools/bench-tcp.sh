#!/usr/bin/env bash
# What a deed costs over TCP, beside what it costs a server of one thread without a rule: a line to each of four links and a line
# from each (tools/bench-tcp/limit.c). Both are played with the same four players a table, which answer at once
# (tools/bench-tcp/players.c), in pairs, one after the other, so that what else the machine does falls on both.
#
# usage: bench-tcp.sh [PROGRAM [PAIRS]]
#
# PROGRAM is the built riichi_table; without it that of this repository, where it is built. PAIRS is how many pairs are played
# of one table and of eight, 9 without it. It takes a C compiler, and writes for each number of tables the medians in
# microseconds a deed with their ratio, and where strace is there the calls of the system a deed, those of futex apart.
cd "$(dirname "$0")/.." || exit 1
program=${1:-crates/riichi_table/out/riichi_table}
pairs=${2:-9}
deeds=1200
seed=6f1c0b2f8e8b6f0c7d6a5b4c3d2e1f00112233445566778899aabbccddeeff00
if [ ! -x "$program" ]; then
    echo "bench-tcp.sh: $program is no program that can be run" >&2
    exit 2
fi
folder=$(mktemp -d)
trap 'kill $(jobs -p) 2> /dev/null; rm -rf "$folder"' EXIT
for name in players limit; do
    "${CC:-cc}" -O2 -Wall -o "$folder/$name" "tools/bench-tcp/$name.c" || exit 2
done

free_port() {
    python3 -c 'import socket; it = socket.create_server(("127.0.0.1", 0)); print(it.getsockname()[1])'
}

# Waits until somebody listens on a port, without connecting to it.
wait_for() {
    local hex
    hex=$(printf ':%04X ' "$1")
    for _ in $(seq 500); do
        grep -q "0100007F$hex.* 0A " /proc/net/tcp && return
        sleep 0.02
    done
    echo "bench-tcp.sh: nobody listens on port $1" >&2
    exit 1
}

# The words of the server of so many tables on a port.
server_words() {
    if [ "$1" -eq 1 ]; then
        echo "serve --seed $seed --port $2"
    else
        echo "tables --seed $seed --rooms $1 --port $2"
    fi
}

# Plays the limit or the server, and writes the microseconds a deed.
play() {
    local what=$1 tables=$2 port rooms=
    port=$(free_port)
    if [ "$what" = limit ]; then
        "$folder/limit" "$port" "$tables" "$deeds" &
    else
        # shellcheck disable=SC2046
        "$program" $(server_words "$tables" "$port") > /dev/null &
    fi
    wait_for "$port"
    [ "$tables" -gt 1 ] && rooms=rooms
    # shellcheck disable=SC2086
    "$folder/players" "$port" "$tables" $rooms > "$folder/said" || exit 1
    wait
    awk '{ print $3 }' "$folder/said"
}

median() {
    sort -n | awk '{ all[NR] = $1 } END { print all[int((NR + 1) / 2)] }'
}

# The calls of the system that the server makes in a game, by deed.
count_calls() {
    local tables=$1 port rooms=
    port=$(free_port)
    # shellcheck disable=SC2046
    strace -f -c -o "$folder/calls" "$program" $(server_words "$tables" "$port") > /dev/null &
    wait_for "$port"
    [ "$tables" -gt 1 ] && rooms=rooms
    # shellcheck disable=SC2086
    "$folder/players" "$port" "$tables" $rooms > "$folder/said" || exit 1
    wait
    awk -v deeds="$(awk '{ print $1 }' "$folder/said")" '
        $1 ~ /^[0-9.]+$/ && $NF != "total" { all += $4 }
        $NF == "futex" { futex = $4 }
        END { printf "    calls of the system a deed: %.1f, of futex %.1f\n", all / deeds, futex / deeds }' "$folder/calls"
}

for tables in 1 8; do
    for _ in $(seq "$pairs"); do
        play limit "$tables" >> "$folder/limit.$tables"
        play server "$tables" >> "$folder/server.$tables"
    done
    least=$(median < "$folder/limit.$tables")
    ours=$(median < "$folder/server.$tables")
    echo "tables $tables: $ours microseconds a deed, without rules $least, ratio $(awk "BEGIN { printf \"%.2f\", $ours / $least }")"
    if command -v strace > /dev/null; then count_calls "$tables"; fi
done
