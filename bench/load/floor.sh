#!/bin/sh
# Puts the same Produce on `kbroker serve`, with nothing synced and synced each second, on floor.c, which does what a broker has to do and
# nothing else, and on echo.c, which keeps and checks nothing: in turn, in three rounds. It prints the median of each, and ratios.
# The broker's executable is the first argument, or crates/kbroker/out/kbroker; the second is how many rounds.
# Everything else goes into a new folder.
set -eu
here=$(cd "$(dirname "$0")" && pwd)
broker=$(realpath "${1:-$here/../../crates/kbroker/out/kbroker}")
cd "$(mktemp -d)"
python3 "$here/../crc/tables.py" --c > tables.h
for it in load floor echo; do gcc -O2 -I. -I"$here/.." -o $it "$here/$it.c"; done
mkdir tables instruction
pids=
trap 'kill $pids' EXIT

# Starts a server under a name, which then has $name.pid and $name.port.
begin() {
    name=$1
    shift
    "$@" > "$name.port" &
    echo $! > "$name.pid"
    pids="$pids $!"
    until [ -s "$name.port" ]; do kill -0 $!; sleep 0.1; done
}

# The same for a broker, by what it syncs.
begin_broker() {
    python3 -c 'import socket; s = socket.socket(); s.bind(("127.0.0.1", 0)); print(s.getsockname()[1])' > free
    cat > "$1.toml" <<END_OF_SETTINGS
host = "127.0.0.1"
port = $(cat free)
data = "$1"
sync = "$1"
[[user]]
name = "ann"
password = "pw1"
tenant = "a"
END_OF_SETTINGS
    begin "$1" "$broker" serve --quiet --config "$1.toml"
    cp free "$1.port"
}

begin echo ./echo
begin tables ./floor tables tables
begin instruction ./floor instruction instruction
begin_broker never
begin_broker interval
for _ in $(seq "${2:-3}"); do
    for name in echo tables instruction never interval; do
        kind=broker
        [ $name != echo ] || kind=echo
        ./load "$(cat $name.port)" "$(cat $name.pid)" $kind produce | sed "s/^/$name|/"
    done
done > all.txt

echo "what | MB/s: broker | broker, synced | floor | floor, instruction | echo |" \
    "against echo: broker | broker, synced | floor | floor, instruction | broker against floor"
sort -t '|' -k 1,1 -k 2,2 -k 4,4n all.txt | awk -F '|' '
    { key = $1 "|" $2; all[key, ++n[key]] = $4; if (!seen[$2]++) what[++rows] = $2 }
    function of(name, key) { key = name "|" what[k]; return all[key, int((n[key] + 1) / 2)] }
    END {
        for (k = 1; k <= rows; k++)
            printf "%s | %.0f | %.0f | %.0f | %.0f | %.0f | %.2f | %.2f | %.2f | %.2f | %.2f\n", what[k], of("never"), of("interval"),
                of("tables"), of("instruction"), of("echo"), of("never") / of("echo"), of("interval") / of("echo"),
                of("tables") / of("echo"), of("instruction") / of("echo"), of("never") / of("tables")
    }'
