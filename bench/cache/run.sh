#!/bin/sh
# Measures a cache over a store over a folder of the system's (kb_cache over kb_folder) against that store alone.
# Builds everything in a folder of its own (the first argument, or a new one), from this repository's sources, without a proof.
set -eu
here=$(cd "$(dirname "$0")" && pwd)
. "$here/../folder.sh"
for crate in kb_store kb_folder kb_cache; do [ -d crates/$crate ] || cp -r "$top/crates/$crate" crates/; done
[ -d crates/cachebench ] || rt new crates/cachebench start_io > /dev/null
rm -rf BUILD.bazel crates/cachebench/BUILD.bazel crates/cachebench/std* crates/cachebench/src crates/cachebench/proofs crates/cachebench/specs; mkdir -p crates/cachebench/src
cp "$here/cache_bench.rt.txt" crates/cachebench/src/main.rt
for crate in kb_store kb_folder kb_cache; do grep "^$crate:" "$top/crates.txt"; done > crates.txt
echo 'cachebench: kb_cache kb_folder kb_store anyhow' >> crates.txt
data=$(mktemp -d "$work/data.XXXXXX")
"$top/gate/unproved" cachebench -O2 --root "$work" > run.log 2>&1 || { cat run.log; exit 1; }
for _ in 1 2 3; do crates/cachebench/out/cachebench-unproved "$data" 2> /dev/null; done | awk '
    { k = $1 "  " $2; if (!(k in append)) order[n++] = k; for (i = 3; i <= 7; i++) if (!((k, i) in best) || $i < best[k, i]) best[k, i] = $i; append[k] = 1 }
    END {
        print "store  bytes  append ns  read ns  read again ns  read at once ns  append and read ns"
        for (j = 0; j < n; j++) print order[j] "  " best[order[j], 3] "  " best[order[j], 4] "  " best[order[j], 5] "  " best[order[j], 6] "  " best[order[j], 7]
    }'
rm -r "$data"
