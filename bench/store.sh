#!/usr/bin/env bash
# bench/store.sh: measures the proved store beside a plain Rust one (bench/plain). Needs cargo on x86-64.
set -eu
cd "$(dirname "$0")/.."
tools/build bench_sound
cargo run --offline --release --quiet --manifest-path bench/store/Cargo.toml --target-dir target/bench/store
