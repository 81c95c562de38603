#!/bin/sh
# Measures a store over a folder of the system's (kb_folder) against plain pwrite(2) and pread(2) on the same folder.
# Builds everything in a folder of its own (the first argument, or a new one), from this repository's sources.
set -eu
here=$(cd "$(dirname "$0")" && pwd)
. "$here/../folder.sh"
for crate in kb_store kb_folder; do [ -d crates/$crate ] || cp -r "$top/crates/$crate" crates/; done
[ -d crates/storebench ] || { printf 'kb_store: thiserror\nkb_folder: kb_store lru thiserror\n' > crates.txt; rt new crates/storebench start_io > /dev/null; }
rm -rf BUILD.bazel crates/storebench/BUILD.bazel crates/storebench/std* crates/storebench/src crates/storebench/proofs crates/storebench/specs; mkdir -p crates/storebench/src
cp "$here/store_bench.rt.txt" crates/storebench/src/main.rt
mkdir -p crates/storebench/proofs/append_all crates/storebench/proofs/read_all
echo 'pub mod Listed' > crates/storebench/proofs/Lib.antt
cp "$here/listed.antt.txt" crates/storebench/proofs/Listed.antt
for function in append_all read_all; do cp "$here/$function.antt.txt" crates/storebench/proofs/$function/Invariants.antt; done
printf 'kb_store: thiserror\nkb_folder: kb_store lru thiserror\nstorebench: kb_folder kb_store anyhow\n' > crates.txt
data=$(mktemp -d "$work/data.XXXXXX")
(cd crates/storebench && rt run -- "$data") > run.log 2>&1 || { cat run.log; exit 1; }
gcc -O2 -o store_gcc "$here/store.c"
{ for _ in 1 2 3; do ./store_gcc "$data"; crates/storebench/out/storebench "$data"; done; } | awk '
    { if (!(($1, $2) in append) || $3 < append[$1, $2]) append[$1, $2] = $3; if (!(($1, $2) in read) || $4 < read[$1, $2]) read[$1, $2] = $4 }
    END {
        print "bytes  append: C ns  store ns  store against C  read: C ns  store ns  store against C"
        split("100 10000 1000000", sizes, " ")
        for (k = 1; k <= 3; k++) {
            n = sizes[k]
            printf "%d  %d  %d  %.2f  %d  %d  %.2f\n", n, append["C", n], append["Rattle", n], append["Rattle", n] / append["C", n], read["C", n], read["Rattle", n], read["Rattle", n] / read["C", n]
        }
    }'
rm -r "$data"
