#!/bin/sh
# Lays out a workspace of the libraries, the two crates of exports, and the program of connections:
# workspace.sh REPOSITORY WORK LIBRARY..
set -eu
repository=$1
work=$2
shift 2
exports=$repository/bench/exports
mkdir -p "$work"
cp "$repository/HANDLES" "$work/HANDLES"
: > "$work/crates.new"
for library in "$@"; do
    grep "^$library:" "$repository/crates.txt" >> "$work/crates.new"
    from=$repository/crates/$library
    to=$work/crates/$library
    mkdir -p "$to"
    if [ -d "$from/out" ] && [ ! -d "$to/out" ]; then cp -a "$from/out" "$to/out"; fi
    for part in src specs proofs; do
        rm -rf "${to:?}/$part"
        cp -a "$from/$part" "$to/$part"
    done
done
# (the exports are over the lower four)
libraries="fe2o3_sasl_wire fe2o3_scram fe2o3_sasl_core fe2o3_sasl"

# lay CRATE FILE..: a crate of these files, of which it has no other.
lay() {
    src=$work/crates/$1/src
    echo "$1 staticlib: $libraries bytes" >> "$work/crates.new"
    shift
    mkdir -p "$src"
    for file in "$src"/*.rt; do
        case " $* " in *"/$(basename "$file").in "*) ;; *) rm -f "$file" ;; esac
    done
    for file in "$@"; do
        name=$(basename "$file" .in)
        cmp -s "$file" "$src/$name" || cp "$file" "$src/$name"
    done
}
# Two, since LLVM inlines a function less where one library calls it from more places.
lay sasl_bench_calls_c "$exports/answers.rt.in" "$exports"/calls/*.rt.in
lay sasl_bench_c "$exports"/*.rt.in
mkdir -p "$work/crates/sasl_bench_connections/src"
connections=$work/crates/sasl_bench_connections
cp "$repository/bench/connections/main.rt.in" "$connections/src/main.rt"
for loop in serve log_in; do
    mkdir -p "$connections/proofs/$loop"
    cp "$repository/bench/connections/proofs/$loop.antt.in" "$connections/proofs/$loop/Invariants.antt"
done
echo "sasl_bench_connections: $libraries fe2o3_sasl_negotiation anyhow bytes" >> "$work/crates.new"
mv "$work/crates.new" "$work/crates.txt"
