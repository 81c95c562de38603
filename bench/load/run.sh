#!/bin/sh
# Puts a load on `kbroker serve` over the loopback, and the same load on a plain C server, and prints both with their ratios; and then
# what Produce comes to beside a server that does what a broker has to do and nothing else (floor.sh).
# The broker's executable is the first argument, or crates/kbroker/out/kbroker. Everything else goes into a new folder.
set -eu
here=$(cd "$(dirname "$0")" && pwd)
broker=$(realpath "${1:-$here/../../crates/kbroker/out/kbroker}")
cd "$(mktemp -d)"
ulimit -n 2048
python3 "$here/../crc/tables.py" --c > tables.h
gcc -O2 -I. -I"$here/.." -o load "$here/load.c"
gcc -O2 -o echo "$here/echo.c"
trap 'kill $pid' EXIT

./echo > port &
pid=$!
until [ -s port ]; do sleep 0.1; done
port=$(cat port)
./load "$port" $pid echo > echo.txt
{ kill $pid && wait $pid; } 2> stopped || true

cat > kbroker.toml <<END
host = "127.0.0.1"
port = $port
data = "kbroker-data"
[[user]]
name = "ann"
password = "pw1"
tenant = "a"
END
"$broker" serve --config kbroker.toml > listening &
pid=$!
until [ -s listening ]; do kill -0 $pid; sleep 0.1; done
./load "$port" $pid broker > broker.txt

echo "what | broker: messages/s, MB/s; or p50, p99 in us; or % of a processor | echo: the same | ratios"
paste -d '|' broker.txt echo.txt | awk -F '|' '
    function ratio(a, b) { return b + 0 ? sprintf("%.2f", a / b) : "" }
    { printf "%s | %s | %s | %s | %s | %s | %s\n", $1, $2, $3, $5, $6, ratio($2, $5), ratio($3, $6) }'

echo
"$here/floor.sh" "$broker"
