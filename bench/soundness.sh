#!/usr/bin/env bash
# Builds and runs bench/soundness.rs over the proved library. Needs rustc on x86-64.
set -eu
cd "$(dirname "$0")/.."
tools/build bench_sound
mkdir -p target/bench
rustc --edition 2021 -O bench/soundness.rs -L target/staticlib -l static=bench_sound -o target/bench/soundness
target/bench/soundness
