# Sourced at the top of the repository by the benchmarks over stores.

# bench_build NAME CRATE..: goes to a temporary folder, which goes when the shell ends, with copies of the crates, the workloads of
# scripts/NAME proved over them and built as a static library, and a Rust program `bench` (rustc -O) that links it.
bench_build() {
    here=$PWD
    name=$1
    shift
    work=$(mktemp -d)
    trap 'rm -rf "$work"' EXIT
    mkdir -p "$work/crates/workloads/src" "$work/crates/workloads/specs" "$work/crates/workloads/proofs"
    for crate in "$@"; do
        cp -r "crates/$crate" "$work/crates/"
        rm -rf "$work/crates/$crate/must-fail" "$work/crates/$crate/out"
        grep "^$crate:" crates.txt >>"$work/crates.txt"
    done
    echo "workloads staticlib: $*" >>"$work/crates.txt"
    cp "scripts/$name/workloads.rt.txt" "$work/crates/workloads/src/lib.rt"
    touch "$work/crates/workloads/specs/Lib.antt" "$work/crates/workloads/proofs/Lib.antt"
    cd "$work/crates/workloads"
    rt lib >log 2>&1 || { tail -n 20 log; exit 1; }
    rustc -O --edition 2024 "$here/scripts/$name/bench.rs" -L out -l static=workloads -o bench
}
