#!/usr/bin/env bash
# bench/ecc.sh [S..]: measures the proved page codes beside plain Rust by words of 64 bits, at each page size S. Needs rustc.
set -eu
cd "$(dirname "$0")/.."
[ $# -gt 0 ] || set -- 256 2048
tools/build bench_ecc
mkdir -p target/bench
rustc --edition 2021 -O bench/ecc.rs -L target/staticlib -l static=bench_ecc -o target/bench/ecc
target/bench/ecc "$@"
