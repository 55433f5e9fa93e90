#!/usr/bin/env bash
# Builds and runs bench/stack.c over the proved library: the bytes of stack that each call needs, by way, of a store without options, of
# a coded one, of a marked one, and of one with 8 shelf pages; then those of the catalogue, of a report and of a rehearsal (class). Needs cc
# on x86-64.
set -eu
cd "$(dirname "$0")/.."
tools/build clash_c catalogue_c rehearsal_c
mkdir -p target/bench
cc -O2 -Iinclude bench/stack.c target/staticlib/lib{clash,catalogue,rehearsal}_c.a -lpthread -Wl,-z,now -o target/bench/stack
paste <(target/bench/stack) <(target/bench/stack coded) <(target/bench/stack marked) <(target/bench/stack 8)
