#!/bin/sh
# What `sync` costs: a producer's answer under "always" against one fdatasync of the same bytes in C on the same disk, 64 producers against
# one, and "interval" against "never". Where redis-server is there, the same of Redis Streams that sync each write (`appendfsync always`).
# Where strace is there, 64 producers against one too on a disk that takes 5 ms for a sync more.
# The broker's executable is the first argument, or crates/kbroker/out/kbroker, and how often all of it is done the second. Everything
# else goes into a new folder, which has to be on a disk.
set -eu
here=$(cd "$(dirname "$0")" && pwd)
broker=$(realpath "${1:-$here/../../crates/kbroker/out/kbroker}")
rounds=${2:-5}
cd "$(mktemp -d)"
python3 "$here/../crc/tables.py" --c > tables.h
gcc -O2 -I. -I"$here/.." -o disk "$here/disk.c"
gcc -O2 -I. -I"$here/.." -o sync "$here/sync.c"
gcc -O2 -o redis "$here/../peers/peers.c" "$here/../peers/redis.c"
free_port() { python3 -c 'import socket; s = socket.socket(); s.bind(("127.0.0.1", 0)); print(s.getsockname()[1])'; }
port=$(free_port)
slow="strace -D -f --seccomp-bpf -o slow.calls -e trace=fsync,fdatasync -e inject=fsync,fdatasync:delay_exit=5000"

pid=
stop() {
    [ -z "$pid" ] || { kill "$pid" && wait "$pid"; } 2> stopped || true
    pid=
}
trap stop EXIT

settings() {
    cat > kbroker.toml <<END
host = "127.0.0.1"
port = $port
data = "kbroker-data"
$([ -z "$1" ] || echo "sync = '$1'")
[[user]]
name = "ann"
password = "pw1"
tenant = "a"
END
    chmod 600 kbroker.toml
}
# start MODE [UNDER..]: starts a broker on a new folder, behind some words.
start() {
    stop
    rm -rf kbroker-data
    settings "$1"
    shift
    : > listening
    "$@" "$broker" serve --config kbroker.toml --quiet > listening 2> told &
    pid=$!
    until [ -s listening ]; do kill -0 $pid 2> stopped || { cat told >&2; exit 1; }; sleep 0.05; done
}
# start_redis: starts a Redis on a new folder that answers a write once it is synced.
start_redis() {
    stop
    rm -rf redis-data
    mkdir redis-data
    peer=$(free_port)
    : > told
    redis-server --bind 127.0.0.1 --port "$peer" --dir "$PWD/redis-data" --save "" --appendonly yes --appendfsync always \
        --auto-aof-rewrite-percentage 0 > told 2>&1 &
    pid=$!
    until grep -q 'Ready to accept' told; do kill -0 $pid 2> stopped || { cat told >&2; exit 1; }; sleep 0.05; done
}
# note WHAT COMMAND..: adds a line of figures.
note() {
    what=$1
    shift
    got=$("$@")
    echo "$what $got" >> figures
}

always=always interval=interval never=never
settings always
"$broker" check --config kbroker.toml > checked 2>&1 || {
    echo "this broker has no key sync: it never syncs"
    always= interval= never=
}
for _ in $(seq "$rounds"); do
    start "$always"
    note disk ./disk disk.file 1
    note one ./sync "$port" 1 1 1 1 1
    note disk ./disk disk.file 1
    note many ./sync "$port" 64 1 1 1 1
    note spread ./sync "$port" 64 64 1 1 1
    if command -v redis-server > found; then
        start_redis
        note redis-one ./redis "$peer" 1
        note redis-many ./redis "$peer" 64
    fi
    if command -v strace > found; then
        start "$always" $slow
        note slow-one ./sync "$port" 1 1 1 1 1
        note slow-many ./sync "$port" 64 1 1 1 1
        note slow-spread ./sync "$port" 64 64 1 1 1
    fi
    for mode in interval never interval never; do
        eval "start \"\$$mode\""
        note "$mode-small" ./sync "$port" 64 1 1 1 2
        note "$mode-large" ./sync "$port" 1 1 100 4 3
    done
done
stop
rm -rf kbroker-data redis-data
python3 "$here/table.py" figures
