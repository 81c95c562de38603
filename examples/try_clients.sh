#!/bin/sh
# A session of stock clients with a broker of three tenants: try_clients.sh [KBROKER]
#
# It serves tenants.toml at localhost:19092, over a new folder, with the proved program (crates/kbroker/out/kbroker, or the one that is
# named). It makes topics with it, lets a producer and a consumer in Python and kcat speak to it, compares what they print, and ends the
# broker. It needs Python's confluent_kafka (Debian: python3-confluent-kafka) and kcat.
set -u
kbroker=$(realpath "${1:-$(dirname "$0")/../crates/kbroker/out/kbroker}")
cd "$(dirname "$0")" || exit 1
faults=0

for python in "${PYTHON:-python3}" /usr/bin/python3 none; do
    "$python" -c 'import confluent_kafka' 2>/dev/null && break
done
if [ "$python" = none ] || ! command -v kcat >/dev/null; then
    echo "try_clients: python3 with confluent_kafka, and kcat, are needed" >&2
    exit 2
fi

# Each with USER PASSWORD first, `topic` behind its verb.
topic() {
    verb=$1 user=$2 password=$3
    shift 3
    timeout 60 "$kbroker" topic "$verb" --broker localhost:19092 --user "$user" --password "$password" "$@"
}
make() { topic create "$1" "$2" orders; }
write() { printf "$3" | timeout 60 "$python" producer.py localhost:19092 "$1" "$2" orders; }
read_all() { timeout 60 "$python" consumer.py localhost:19092 "$1" "$2" orders; }
with_kcat() {
    user=$1 password=$2
    shift 2
    timeout 60 kcat -q -b localhost:19092 -X security.protocol=SASL_PLAINTEXT -X sasl.mechanisms=PLAIN \
        -X sasl.username="$user" -X sasl.password="$password" "$@"
}
write_with_kcat() { echo "$3" | with_kcat "$1" "$2" -P -t orders; }

# expect WHAT LINES COMMAND..: the command prints these lines, and nothing else.
expect() {
    what=$1 lines=$(printf "$2")
    shift 2
    printed=$("$@" 2>&1 | grep -v ': unproved, ') # an executable without a proof says so first
    if [ "$printed" = "$lines" ]; then
        echo "ok: $what"
    else
        echo "NOT AS EXPECTED: $what"
        echo "$printed"
        faults=$((faults + 1))
    fi
}

# A folder of its own, so that it finds no topics of an earlier session.
said=$(mktemp) home=$(mktemp -d)
sed "s|^data = .*|data = \"$home/data\"|" tenants.toml >"$home/tenants.toml"
"$kbroker" serve --config "$home/tenants.toml" --stock-clients >"$said" &
broker=$!
trap 'kill $broker 2>/dev/null; wait $broker 2>/dev/null; rm -rf "$said" "$home"' EXIT
for _ in 1 2 3 4 5 6 7 8 9 10; do
    grep -q listening "$said" && break
    sleep 0.5
done

if ! grep -q listening "$said"; then
    echo "try_clients: $kbroker does not serve" >&2
    exit 1
fi

expect "ann makes a topic" "made orders, partitions: 1" make ann pw1
expect "amir of the same tenant cannot make it again" "kbroker: TOPIC_ALREADY_EXISTS" make amir pw2
expect "bob of another tenant makes his own" "made orders, partitions: 1" make bob pw3
expect "ann writes" "3 sent" write ann pw1 'one\ntwo\nthree\n'
expect "bob writes" "1 sent" write bob pw3 'uno\n'
expect "amir reads what ann wrote" '0 one\n1 two\n2 three' read_all amir pw2
expect "bob reads what he wrote" "0 uno" read_all bob pw3
expect "cleo of the third tenant has no such topic" "consumer: Broker: Unknown topic or partition" read_all cleo pw4
expect "kcat writes as ann" "" write_with_kcat ann pw1 four
expect "kcat reads all of it" 'one\ntwo\nthree\nfour' with_kcat ann pw1 -C -t orders -o beginning -e
expect "amir lists it" "orders 1" topic list amir pw2
expect "ann deletes it" "deleted orders" topic delete ann pw1 orders
expect "it is gone" "kbroker: UNKNOWN_TOPIC_OR_PARTITION" topic delete ann pw1 orders
expect "bob's is there" "orders 1" topic list bob pw3

if [ "$faults" -ne 0 ]; then
    echo "$faults not as expected"
    exit 1
fi
echo "all as expected"
