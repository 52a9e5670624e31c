#!/bin/sh
# Times the list store and the cube beside a Rust BTreeSet<u32> and a scanned Vec<u32>, all in one process, and prints a
# table of calls a second and ratios. Builds in a temporary folder: copies of the store crates, the workloads of
# scripts/bench_stores proved and built as a static library, and a Rust program (rustc -O) that links it.
# Before each run of `add` the store is cleared; buffers are not cleared otherwise.
set -eu
cd "$(dirname "$0")/.."
. scripts/bench_build.sh
bench_build bench_stores triples list_store cube_store
./bench
