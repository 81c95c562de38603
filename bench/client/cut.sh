#!/bin/bash
# Sends LINES lines (20000) through a proxy that ends the connection CUTS times (30) at random, and reads them back with
# kconsole and, if it is there, with kcat: each line has to come once and in order.
#
#     bench/client/cut.sh [LINES [CUTS [SEED]]]      # needs the proved kbroker and kconsole (or KBROKER and KCONSOLE) and python3
set -eu
here=$(cd "$(dirname "$0")" && pwd)
top=$(cd "$here/../.." && pwd)
kbroker=${KBROKER:-$top/crates/kbroker/out/kbroker}
kconsole=${KCONSOLE:-$top/crates/kconsole/out/kconsole}
lines=${1:-20000} cuts=${2:-30} seed=${3:-1}
port=$((20000 + $$ % 20000)) proxy=$((20001 + $$ % 20000))
work=$(mktemp -d)
trap 'kill $broker $cutter 2>/dev/null || true; rm -rf "$work"' EXIT

cat > "$work/kbroker.toml" <<END
host = "localhost"
port = $port
connections = 64
segment_bytes = 1048588
cache_batches = 16
data = "$work/data"

[[user]]
name = "ann"
password = "pw1"
tenant = "a"
END
"$kbroker" serve --config "$work/kbroker.toml" --stock-clients > "$work/broker.out" 2>&1 &
broker=$!
python3 "$here/cut.py" "$proxy" "$port" "$cuts" "$seed" > "$work/cuts" &
cutter=$!
sleep 1
seq -f 'line %.0f' "$lines" > "$work/lines"
console() {
    task=$1 to=$2
    shift 2
    "$kconsole" "$task" --broker "localhost:$to" --user ann --password pw1 --topic orders --retries 1000 "$@"
}
time console produce "$proxy" --create 1 < "$work/lines"
tail -n 1 "$work/cuts"
console consume "$port" > "$work/consumed"
cmp "$work/lines" "$work/consumed"
echo "kconsole: each of $lines lines once, in order"
console consume "$proxy" > "$work/consumed"
cmp "$work/lines" "$work/consumed"
tail -n 1 "$work/cuts"
if command -v kcat > /dev/null; then
    kcat -b "localhost:$port" -X security.protocol=SASL_PLAINTEXT -X sasl.mechanisms=PLAIN -X sasl.username=ann \
        -X sasl.password=pw1 -C -t orders -o beginning -e -q > "$work/consumed"
    cmp "$work/lines" "$work/consumed"
    echo "kcat: each of $lines lines once, in order"
fi
