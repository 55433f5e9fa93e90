#!/usr/bin/env bash
# Builds and runs bench/wear.rs over the proved library. Needs rustc on x86-64.
set -eu
cd "$(dirname "$0")/.."
tools/build bench_wear
mkdir -p target/bench
rustc --edition 2021 -O bench/wear.rs -L target/staticlib -l static=bench_wear -o target/bench/wear
target/bench/wear
