#!/bin/sh
# Measures BatchView::read of kb_batch against the same tests in plain C, on batches of 1 to 10,000 records, and a search by time in them.
# Builds everything in a folder of its own (the first argument, or a new one), from this repository's sources.
set -eu
here=$(cd "$(dirname "$0")" && pwd)
. "$here/../folder.sh"
for crate in kb_wire kb_batch; do [ -d crates/$crate ] || cp -r "$top/crates/$crate" crates/; done
[ -d crates/batchbench ] || { printf 'kb_wire: thiserror\nkb_batch: kb_wire thiserror\n' > crates.txt; rt new crates/batchbench start_io > /dev/null; }
rm -rf BUILD.bazel crates/batchbench/BUILD.bazel crates/batchbench/std* crates/batchbench/src crates/batchbench/proofs crates/batchbench/specs; mkdir -p crates/batchbench/src
cp "$here/read_bench.rt.txt" crates/batchbench/src/main.rt
printf 'kb_wire: thiserror\nkb_batch: kb_wire thiserror\nbatchbench: kb_batch anyhow\n' > crates.txt
(cd crates/batchbench && rt run) > run.log 2>&1 || { cat run.log; exit 1; }
python3 "$here/../crc/tables.py" --c > tables.h
gcc -O2 -I. -I"$here/.." -o batch_gcc "$here/batch.c"
{ for _ in 1 2 3; do ./batch_gcc; crates/batchbench/out/batchbench; done; } | sort | awk '
    { key = $1 " " $2; if (!(key in best) || $4 < best[key]) best[key] = $4; bytes[$2] = $3 }
    END {
        print "records  bytes  C ns  Rattle ns  Rattle against C (time)  search ns"
        for (n = 1; n <= 10000; n *= 10)
            printf "%d  %d  %d  %d  %.2f  %d\n", n, bytes[n], best["C " n], best["Rattle " n], best["Rattle " n] / best["C " n], best["Search " n]
    }'
