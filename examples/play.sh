#!/usr/bin/env bash
# Plays a whole game over TCP on this machine with the four example players, checks its record, makes a page of it, and shows
# the page where there is a screen. One player leaves in the middle of the game and comes back to its seat by its key; one
# speaks to standard output and is seated by the bridge. In the current folder it leaves record.txt and record.html. Where
# riichi_table is installed this script is the command riichi-table-play.
#
# usage: play.sh [PROGRAM [SEED [PORT]]]
#
# PROGRAM is the built program; without it the proved one of this repository is taken, or the installed one, or, where neither
# is there, one that `rt try` builds in a minute or two without proving it. SEED is 64 hex digits, fresh without it. PORT is a
# free one without it.
set -u
self=$(basename "$0")
case ${1:-} in -*)
    echo "usage: $self [PROGRAM [SEED [PORT]]]" >&2
    exit 2 ;;
esac

fail() {
    echo "$self: $*" >&2
    exit 1
}

here=$(cd "$(dirname "$(readlink -f "$0")")" && pwd)
crate=$here/../crates/riichi_table
command -v python3 > /dev/null || fail "there is no python3"
program=${1:-$crate/out/riichi_table}
[ $# -gt 0 ] || [ -x "$program" ] || program=$here/../../../bin/riichi_table
seed=${2:-$(od -An -N32 -tx1 /dev/urandom | tr -d ' \n')}
port=${3:-$(python3 -c 'import socket; it = socket.create_server(("127.0.0.1", 0)); print(it.getsockname()[1])')}
patience=30

if [ -x "$program" ]; then
    table() { "$program" "$@"; }
elif [ $# -gt 0 ]; then
    fail "$program is no program that can be run"
elif command -v rt > /dev/null; then
    echo "The program isn't built. This run is UNPROVED: rt try builds it in a minute or two."
    echo "To prove and build it, some 20 minutes: cd crates/riichi_table && rt run -- referee 0 < stdin"
    table() { (cd "$crate" && exec rt try --seconds 3600 -- "$@"); }
    patience=600
else
    fail "the program isn't built, and there is no rt to build it: see README.md"
fi
{ : > record.txt; } 2> /dev/null || fail "record.txt can't be written in $PWD"

echo "seed $seed, port $port"
table serve --seed "$seed" --limit 5000 --port "$port" > record.txt &
server=$!
trap 'kill $(jobs -p) 2> /dev/null' EXIT
until (exec 3<> "/dev/tcp/127.0.0.1/$port") 2> /dev/null; do
    kill -0 $server 2> /dev/null || fail "the server ended before its port was open"
    [ $SECONDS -lt $patience ] || fail "nobody listens on port $port after $patience seconds"
    sleep 0.2
done

python3 "$here/caller.py" anna "" "$port" &
python3 "$here/bridge.py" --name bert --port "$port" --limit 5000 --log /dev/null -- python3 "$here/caller.py" --stdio &
bash "$here/player.sh" carl "" "$port" 0.02 &
python3 "$here/player.py" dora secret "$port" 300
python3 "$here/player.py" dora secret "$port" &

wait $server
status=$?
wait
trap - EXIT
[ $status -eq 0 ] || fail "the server ended with $status"
table replay < record.txt || fail "the record is refused"
python3 "$here/../viewer/page.py" record.txt record.html || fail "the page wasn't made"
if [ -n "${DISPLAY:-}${WAYLAND_DISPLAY:-}" ] && command -v xdg-open > /dev/null; then
    echo "The game is shown in your browser, from $PWD/record.html."
    xdg-open record.html > /dev/null 2>&1 &
else
    echo "To look at the game open $PWD/record.html in a browser."
fi
