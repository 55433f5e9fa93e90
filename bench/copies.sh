#!/usr/bin/env bash
# Builds and runs bench/copies.c over the proved library: what each call copies, by way. Needs cc on x86-64.
set -eu
cd "$(dirname "$0")/.."
tools/build clash_c
mkdir -p target/bench
cc -O2 -Iinclude bench/copies.c target/staticlib/libclash_c.a -Wl,--wrap=memmove,--wrap=memcpy -o target/bench/copies
target/bench/copies
