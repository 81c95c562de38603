#!/bin/sh
# Measures crc32c of kb_batch against C's slicing by 8, on 100 MB cut into pieces of several sizes.
# Builds everything in a folder of its own (the first argument, or a new one), from this repository's sources.
set -eu
here=$(cd "$(dirname "$0")" && pwd)
. "$here/../folder.sh"

# The checksum's files alone, as a crate, and a program that times it.
if [ ! -d crates/crcbench ]; then
    : > crates.txt
    rt new crates/kb_batch start_lib
    rt new crates/crcbench start_io
    rm -rf crates/kb_batch/* crates/crcbench/*
    mkdir -p crates/kb_batch/src crates/kb_batch/specs crates/kb_batch/proofs crates/crcbench/src
fi
rm -f BUILD.bazel
printf 'kb_batch:\ncrcbench: kb_batch anyhow\n' > crates.txt
cp -r "$top"/crates/kb_batch/src/crc.rt "$top"/crates/kb_batch/src/crc crates/kb_batch/src/
cp "$top"/crates/kb_batch/specs/Crc.antt crates/kb_batch/specs/
cp -r "$top"/crates/kb_batch/proofs/Crc*.antt "$top"/crates/kb_batch/proofs/crc crates/kb_batch/proofs/
echo 'pub mod Crc' > crates/kb_batch/specs/Lib.antt
printf 'pub mod CrcBytes\npub mod CrcLinear\npub mod CrcTables\n' > crates/kb_batch/proofs/Lib.antt
cat > crates/kb_batch/src/lib.rt <<'END'
//! CRC-32C.
#![tactic(auto)]

mod crc;

pub use crc::{crc32c, Crc};
END
cat > crates/crcbench/src/main.rt <<'END'
//! Times crc32c: for each size of a piece, the best of nine runs over 100 MB, in microseconds.
#![tactic(auto)]

ghost use Rattle.std.specs.Prelude.{◌<◌};

use kb_batch::crc32c;
use std::time::Instant;

fn sums(bytes: &[u8], size: usize) -> u32
    requires { 0 < size }
{
    let mut sum = 0;
    for piece in bytes.chunks(size) {
        sum ^= crc32c(piece);
    }
    sum
}

fn main(rt: HostRuntime) -> anyhow::Result<()> {
    let mut bytes = vec![in rt.alloc(); 0u8; 100_000_000]?;
    let mut seed = 1u32;
    for b in bytes.iter_mut() {
        seed = seed.wrapping_mul(1664525).wrapping_add(1013904223);
        *b = (seed >> 24) as u8;
    }
    for k in 0..4usize {
        let size = match k {
            0 => 100,
            1 => 1000,
            2 => 20000,
            _ => 100_000_000,
        };
        let mut best = u128::MAX;
        let mut sum = 0;
        for _ in 0..9 {
            let start = Instant::now(&rt)?;
            sum = sums(&bytes, size);
            best = best.min(start.elapsed(&rt)?.as_micros());
        }
        println!(rt; "Rattle {size} {sum:08x} {best}")?;
    }
    Ok(())
}
END
(cd crates/kb_batch && rt lib) > lib.log 2>&1 || { cat lib.log; exit 1; }
(cd crates/crcbench && rt run) > run.log 2>&1 || { cat run.log; exit 1; }
python3 "$here/tables.py" --c > tables.h
gcc -O2 -I. -I"$here/.." -o crc_gcc "$here/crc.c"
{ for _ in 1 2 3; do ./crc_gcc; crates/crcbench/out/crcbench; done; } | sort | awk '
    { key = $1 " " $2; if (!(key in best) || $4 < best[key]) best[key] = $4; sum[$2] = sum[$2] $3 "\n"; sizes[$2] }
    END {
        print "size  C-by-8 GB/s  C-by-16 GB/s  Rattle GB/s  Rattle against C-by-8 (time)"
        for (size in sizes) {
            c = best["C-by-8 " size]; r = best["Rattle " size]
            printf "%9d  %.2f  %.2f  %.2f  %.2f\n", size, 1e5 / c, 1e5 / best["C-by-16 " size], 1e5 / r, r / c
        }
    }' | sort -n
