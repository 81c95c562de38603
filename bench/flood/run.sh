#!/bin/sh
# What one client of a tenant waits for while another tenant floods the broker, and the same alone, in one run.
# The broker's executable is the first argument, or crates/kbroker/out/kbroker; the second one how many seconds a figure takes; a third
# one a line of settings. Everything else goes into a new folder, which is removed.
set -eu
here=$(cd "$(dirname "$0")" && pwd)
broker=$(realpath "${1:-$here/../../crates/kbroker/out/kbroker}")
room=$(mktemp -d)
cd "$room"
ulimit -n 2048
python3 "$here/../crc/tables.py" --c > tables.h
gcc -O2 -I. -I"$here/.." -o flood "$here/flood.c"
pid=
trap 'kill $pid 2> stopped || true; wait; cd /; rm -r "$room"' EXIT

cat > kbroker.toml <<END
host = "127.0.0.1"
port = 19199
data = "kbroker-data"
${3:-}
[[user]]
name = "ann"
password = "pw1"
tenant = "a"
[[user]]
name = "bob"
password = "pw2"
tenant = "b"
END
chmod 600 kbroker.toml
"$broker" serve --config kbroker.toml > listening 2> log &
pid=$!
until [ -s listening ]; do kill -0 $pid; sleep 0.1; done
echo "load average $(cut -d ' ' -f 1 /proc/loadavg)"
./flood 19199 "${2:-2}" > figures
echo "load average $(cut -d ' ' -f 1 /proc/loadavg)"
echo "what | p50, us | p99, us | longest, us | against alone: p50 | p99 | requests/s of the flood | samples"
awk -F '|' '
    { split($1, what, ", ") }
    what[2] == "alone" { p50[what[1]] = $2; p99[what[1]] = $3 }
    { printf "%s | %s | %s | %s | %.1f | %.1f | %s | %s\n", $1, $2, $3, $4, $2 / p50[what[1]], $3 / p99[what[1]], $5, $6 }' figures
