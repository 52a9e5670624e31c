#!/bin/sh
# Times closing over the list store and over the cube beside clingo (Debian package gringo), in one run, on a few graphs, and
# prints a table of times, ratios and store calls. Builds in a temporary folder: copies of the crates, the workloads of
# scripts/bench_closing proved and built as a static library, and a Rust program (rustc -O) that links it. The buffers are made and
# cleared in each run. `--long` adds 100 classes with 100 instances, which takes minutes over a list.
set -eu
cd "$(dirname "$0")/.."
. scripts/bench_build.sh
bench_build bench_closing triples walks list_store cube_store counting_store entailment closing
./bench "$here/scripts/bench_closing/rows.lp" "$@"
