#!/bin/sh
# kconsole beside kcat on one broker, side by side in one run: lines a second produced, a line a batch and one batch in flight, and
# megabytes of values a second consumed.
#
#     bench/client/run.sh        # needs the proved kbroker and kconsole (or KBROKER and KCONSOLE), python3, and kcat for its columns
#
# LINES (100000) lines of 100 bytes are produced by each; FILL (20000) lines of 10,000 bytes are consumed by each, the best of three.
set -eu
here=$(cd "$(dirname "$0")" && pwd)
top=$(cd "$here/../.." && pwd)
kbroker=${KBROKER:-$top/crates/kbroker/out/kbroker}
kconsole=${KCONSOLE:-$top/crates/kconsole/out/kconsole}
lines=${LINES:-100000} fill=${FILL:-20000}
port=$((20000 + $$ % 20000))
work=$(mktemp -d)
trap 'kill $broker 2>/dev/null || true; rm -rf "$work"' EXIT

sed -e "s/^port = .*/port = $port/" -e "s|^data = .*|data = \"$work/data\"|" "$top/examples/kbroker.toml" > "$work/kbroker.toml"
"$kbroker" serve --config "$work/kbroker.toml" --stock-clients --quiet > "$work/broker.out" 2>&1 &
broker=$!
sleep 1
python3 - "$work" "$lines" "$fill" <<'END'
import sys
work, lines, fill = sys.argv[1], int(sys.argv[2]), int(sys.argv[3])
with open(work + "/lines", "w") as out:
    for number in range(lines):
        out.write(f"{number:0100d}\n")
with open(work + "/fill", "w") as out:
    for number in range(fill):
        out.write(f"{number:010000d}\n")
END
console() {
    task=$1 topic=$2
    shift 2
    "$kconsole" "$task" --broker "localhost:$port" --user ann --password pw1 --topic "$topic" "$@"
}
kc() {
    kcat -q -b "localhost:$port" -X security.protocol=SASL_PLAINTEXT -X sasl.mechanisms=PLAIN -X sasl.username=ann \
        -X sasl.password=pw1 "$@"
}
# seconds COMMAND..: how long it takes
seconds() {
    start=$(date +%s.%N)
    "$@"
    python3 -c "print($(date +%s.%N) - $start)"
}
produce() { console produce one --create 1 < "$work/lines" > /dev/null; }
produce_kcat() {
    kc -P -t two -l "$work/lines" -X enable.idempotence=true -X acks=all -X queue.buffering.max.ms=0 -X batch.num.messages=1 \
        -X max.in.flight.requests.per.connection=1
}
consume() { console consume full > /dev/null; }
consume_kcat() { kc -C -t full -o beginning -e > /dev/null; }

row() { python3 -c "print('| %s | %.2f s | %.0f %s |' % ('$1', $2, $3 / $2, '$4'))"; }
best() { for _ in 1 2 3; do seconds "$@"; done | sort -g | head -n 1; }

console produce full --create 1 < "$work/fill" > /dev/null
console produce two --create 1 < /dev/null > /dev/null
bytes=$((fill * 10000))
row "kconsole produce" "$(seconds produce)" "$lines" lines/s
row "kconsole consume" "$(best consume)" "$bytes / 1000000" MB/s
if command -v kcat > /dev/null; then
    row "kcat -P" "$(seconds produce_kcat)" "$lines" lines/s
    row "kcat -C" "$(best consume_kcat)" "$bytes / 1000000" MB/s
fi
