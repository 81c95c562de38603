#!/bin/sh
# Puts the same load on `kbroker serve`, Redis Streams and NATS JetStream (Debian: redis-server, nats-server), each in memory
# alone, and prints the figures as they come, and then the best of three runs of each as tables.
# The broker's executable is the first argument, or crates/kbroker/out/kbroker. Everything else goes into a new folder.
set -eu
here=$(cd "$(dirname "$0")" && pwd)
broker=$(realpath "${1:-$here/../../crates/kbroker/out/kbroker}")
cd "$(mktemp -d)"
ulimit -n 4096
python3 "$here/../crc/tables.py" --c > tables.h
gcc -O2 -I. -I"$here/.." -o load "$here/../load/load.c"
gcc -O2 -o redis "$here/peers.c" "$here/redis.c"
gcc -O2 -o nats "$here/peers.c" "$here/nats.c"
printf 'host = "127.0.0.1"\nport = 19192\ndata = "kbroker-data"\n[[user]]\nname = "ann"\npassword = "pw1"\ntenant = "a"\n' > kbroker.toml

pid=
stop() {
    [ -z "$pid" ] || { kill "$pid" && wait "$pid"; } 2> stopped || true
    pid=
}
trap stop EXIT

# start WORDS COMMAND..: starts a server, and waits until it says those words.
start() {
    words=$1
    shift
    : > said
    "$@" >> said 2>&1 &
    pid=$!
    until grep -q "$words" said; do
        kill -0 $pid 2> stopped || { cat said >&2; exit 1; }
        sleep 0.1
    done
}
start_broker() { start 'listening on' "$broker" serve --config kbroker.toml --quiet; }
start_redis() {
    start 'Ready to accept' redis-server --bind 127.0.0.1 --port 19193 --save "" --appendonly no --maxclients 4000
}
start_nats() { start 'Server is ready' nats-server -a 127.0.0.1 -p 19194 -js -sd "$PWD/nats-data"; }

# note PEER COMMAND..: keeps and prints the figures of a load on that peer.
note() {
    peer=$1
    shift
    "$@" > figures
    sed "s/^/$peer|/" figures | tee -a all
}
# The figures of the whole load in which nobody waits, which are each the best of three runs already.
load_alone() {
    ./load 19192 $pid broker > whole
    grep -e '^Produce, 100 messages of 100 bytes|' -e '^1 connection|' -e '^1000 connections, one works|' whole
}
for round in 1 2 3; do
    start_broker
    note broker ./load 19192 $pid broker waits
    stop
    start_redis
    note Redis ./redis 19193
    stop
    start_nats
    note NATS ./nats 19194
    stop
done
start_broker
note broker load_alone
stop

awk -F '|' '
    {
        for (k = 3; k <= 4; k++) {
            known = best[$1, $2, k]
            if (known == "" || ($2 ~ /^Produce/) == ($k + 0 > known + 0))
                best[$1, $2, k] = $k
        }
    }
    function head(first, second) {
        printf "\n|"
        for (i = 1; i <= 3; i++)
            printf " | %s, %s | %s", peers[i], first, second
        print " |\n|---|---|---|---|---|---|---|"
    }
    function row(title, what) {
        printf "| %s", title
        for (i = 1; i <= 3; i++)
            printf " | %s | %s", best[peers[i], what, 3], best[peers[i], what, 4]
        print " |"
    }
    END {
        split("broker Redis NATS", peers, " ")
        head("p50 µs", "p99")
        row("one message, no other connection", "1 connection")
        row("one message, 999 other connections", "1000 connections, one works")
        row("from a message to a consumer that waits", "a consumer waits")
        row("from a message to the last of 999 that wait", "999 consumers wait")
        head("messages/s", "MB/s")
        row("Produce, messages of 100 bytes", "Produce, 100 messages of 100 bytes")
    }' all
