#!/usr/bin/env bash
# Builds and runs bench/victim.rs over the proved library. Needs rustc on x86-64.
set -eu
cd "$(dirname "$0")/.."
tools/build bench_victim
mkdir -p target/bench
rustc --edition 2021 -O bench/victim.rs -L target/staticlib -l static=bench_victim -o target/bench/victim
target/bench/victim
