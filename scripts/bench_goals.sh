#!/bin/sh
# Times the search for an embedding on hostile goals, over a closure of some 4,096 triples in the list store and in the cube, and
# prints a table: the median time of an answer, and how many questions the store was asked. Builds in a temporary folder: copies
# of the crates, the workloads of scripts/bench_goals proved and built as a static library, and a Rust program (rustc -O) that
# links it.
set -eu
cd "$(dirname "$0")/.."
. scripts/bench_build.sh
bench_build bench_goals triples walks list_store cube_store counting_store stacks entailment embedding
./bench
