#!/usr/bin/env bash
# bench/page.sh [S..]: measures the proved page functions beside Rust's own, at each page size S.
# The library calls memmove and memset through the linkage table. Rust does not with full RELRO, its default, and does with partial RELRO: at small
# sizes that jump shows, so both builds run.
set -eu
cd "$(dirname "$0")/.."
[ $# -gt 0 ] || set -- 16 256 2048
tools/build bench_c
mkdir -p target/bench
for level in full partial; do
  rustc -O -C relro-level=$level bench/page.rs -L target/staticlib -l static=bench_c -o target/bench/page-$level
  echo "rustc -O, $level RELRO"
  target/bench/page-$level "$@"
done
