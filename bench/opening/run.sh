#!/bin/sh
# Measures how long `kbroker serve` takes until it listens, on a folder with one partition of 1 GB, and then with 1,024 partitions of
# 1 GB together, in batches of three sizes, against a C program that reads and sums the same files. The first argument is the
# executable, the second how many bytes in all (1000000000 where it is missing).
set -eu
here=$(cd "$(dirname "$0")" && pwd)
kbroker=$1
total=${2:-1000000000}
work=$(mktemp -d)
trap 'rm -rf "$work"' EXIT
python3 "$here/../crc/tables.py" --c > "$work/tables.h"
gcc -O2 -I "$work" -o "$work/sum" "$here/sum.c"
printf 'host = "127.0.0.1"\nport = 19292\ndata = "%s/data"\n[[user]]\nname = "ann"\npassword = "pw1"\ntenant = "a"\n' "$work" > "$work/settings.toml"
echo "batch bytes, seconds until it listens, seconds of C, against it"
measure() { # the bytes of a batch, how many topics, and how many partitions each has
    size=$1
    rm -rf "$work/data"
    mkdir "$work/data"
    python3 "$here/start.py" "$kbroker" "$work/settings.toml" create "$2" "$3" > /dev/null
    python3 "$here/fill.py" "$work/data" "$size" "$total" "$(($2 * $3))"
    took=$(python3 "$here/start.py" "$kbroker" "$work/settings.toml" open)
    sum=$("$work/sum" "$work"/data/*.seg 2> /dev/null)
    echo "$size $took $sum" | awk '{ printf "%d, %.2f, %.2f, %.2f\n", $1, $2, $3, $2 / $3 }'
}
for size in 1048576 16384 1000; do
    measure "$size" 1 1
done
echo "the same, of 1,024 partitions"
for size in 1048576 16384 1000; do
    measure "$size" 16 64
done
