#!/bin/sh
# Measures a partition's log: in files (kb_segment_log) against the list in memory (kb_log), both over a store in memory; and in files
# over a folder of the system's (kb_folder) against plain pwrite(2) and pread(2) on the same folder.
# Builds everything in a folder of its own (the first argument, or a new one), from this repository's sources.
set -eu
here=$(cd "$(dirname "$0")" && pwd)
. "$here/../folder.sh"
low="kb_wire kb_store kb_batch kb_segment kb_folder kb_log kb_segment_log"
for crate in $low; do
    [ -d crates/$crate ] || cp -r "$top/crates/$crate" crates/
    grep "^$crate:" "$top/crates.txt"
done > crates.txt
[ -d crates/logbench ] || rt new crates/logbench start_io > /dev/null
rm -rf BUILD.bazel crates/logbench/BUILD.bazel crates/logbench/std* crates/logbench/src crates/logbench/proofs crates/logbench/specs; mkdir -p crates/logbench/src
cp "$here/log_bench.rt.txt" crates/logbench/src/main.rt
mkdir -p crates/logbench/proofs/append_all crates/logbench/proofs/fetch_all
echo 'pub mod Sound' > crates/logbench/proofs/Lib.antt
cp "$here/sound.antt.txt" crates/logbench/proofs/Sound.antt
for function in append_all fetch_all; do cp "$here/$function.antt.txt" crates/logbench/proofs/$function/Invariants.antt; done
echo 'logbench: kb_segment_log kb_log kb_folder kb_batch kb_store anyhow' >> crates.txt
data=$(mktemp -d "$work/data.XXXXXX")
(cd crates/logbench && rt run -- "$data") > run.log 2>&1 || { cat run.log; exit 1; }
gcc -O2 -o logs_gcc "$here/logs.c"
{ for _ in 1 2 3 4 5 6; do ./logs_gcc "$data"; crates/logbench/out/logbench "$data"; done; } | awk '
    { if (!(($1, $2) in append) || $3 < append[$1, $2]) append[$1, $2] = $3; if (!(($1, $2) in fetch) || $4 < fetch[$1, $2]) fetch[$1, $2] = $4 }
    function row(what, from, name, n) {
        printf "%s  %d  %d  %d  %.2f  %d  %d  %.2f\n", what, n, append[from, n], append[name, n], append[name, n] / append[from, n], fetch[from, n], fetch[name, n], fetch[name, n] / fetch[from, n]
    }
    END {
        print "what  bytes  append: yardstick ns  log ns  against it  fetch of 1 MB: yardstick us  log us  against it"
        split("64637 170", sizes, " ")
        for (k = 1; k <= 2; k++) row("in memory, against the list", "list", "segments", sizes[k])
        for (k = 1; k <= 2; k++) row("over a folder, against C", "C", "folder", sizes[k])
    }'
rm -r "$data"
