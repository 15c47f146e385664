#!/usr/bin/env bash
# A player for riichi_table in shell: it discards each tile that it draws and passes otherwise. With a pause, in seconds, it
# takes its time before it discards.
#
# usage: player.sh [--host HOST] [--room ROOM] NAME [KEY [PORT [PAUSE]]]
usage='usage: player.sh [--host HOST] [--room ROOM] NAME [KEY [PORT [PAUSE]]]'
host=127.0.0.1
room=default
while [ $# -gt 1 ]; do
    case $1 in
        --host) host=$2 ;;
        --room) room=$2 ;;
        *) break ;;
    esac
    shift 2
done
case ${1:--} in
    -*)
        echo "$usage" >&2
        exit 2 ;;
esac
name=$1
key=$2
port=${3:-11600}
pause=$4

if ! { exec 3<>"/dev/tcp/$host/$port"; } 2> /dev/null; then
    echo "$name: nobody listens on $host port $port" >&2
    exit 1
fi

seat=
told_before=0
while IFS= read -r line <&3; do
    case $line in
        '{"type":"hello",'*)
            if [ -n "$key" ]; then
                echo "{\"type\":\"join\",\"name\":\"$name\",\"key\":\"$key\",\"room\":\"$room\"}" >&3
            else
                echo "{\"type\":\"join\",\"name\":\"$name\",\"room\":\"$room\"}" >&3
            fi
            continue ;;
        '{"type":"replay",'*)
            # so many lines were told before; they want no answer
            told_before=${line//[^0-9]/}
            continue ;;
        '{"type":"error","sit":'*)
            line=${line##*\"message\":\"}
            echo "$name: no seat: ${line%%\"*}" >&2
            exit 1 ;;
        '{"type":"error",'*)
            # the last answer was refused, and the same event is to be answered again
            echo '{"type":"none"}' >&3
            continue ;;
        '{"type":"start_game","id":'*)
            seat=${line#*\"id\":}
            seat=${seat%%,*} ;;
    esac
    if [ "$told_before" -gt 0 ]; then
        told_before=$((told_before - 1))
        continue
    fi
    case $line in
        "{\"type\":\"tsumo\",\"actor\":$seat,"*)
            tile=${line#*\"pai\":\"}
            tile=${tile%%\"*}
            [ -n "$pause" ] && sleep "$pause"
            echo "{\"type\":\"dahai\",\"actor\":$seat,\"pai\":\"$tile\",\"tsumogiri\":true}" >&3 ;;
        *)
            echo '{"type":"none"}' >&3 ;;
    esac
    case $line in
        '{"type":"end_game",'*)
            echo "$name: $line"
            exit 0 ;;
    esac
done
echo "$name: the connection ended" >&2
exit 1
