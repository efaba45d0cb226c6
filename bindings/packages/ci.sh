#!/usr/bin/env bash
# Runs the tests of the bindings for C, Python and Rust over a built library, without the Rattle kit: `ci.sh ARCHIVE`.
# ARCHIVE is fe2o3_sasl-VERSION-CPU.tar.gz of a release, which `make dist` makes. Needs a C compiler, tar, gzip, Python 3.9
# or later, and cargo. Prints the time of each part.
set -euo pipefail
[ $# = 1 ] || { sed -n '2,4s/^# //p' "$0" >&2; exit 2; }
[ -f "$1" ] || { echo "ci.sh: no file $1" >&2; exit 1; }
archive=$(realpath "$1")
cd "$(dirname "$0")/../.."
for tool in cc tar gzip python3 cargo cmp; do
    command -v "$tool" > /dev/null || { echo "ci.sh: $tool is missing" >&2; exit 1; }
done
work=$(mktemp -d)
trap 'rm -rf "$work"' EXIT
tar -xf "$archive" -C "$work"
built=$(dirname "$(dirname "$(echo "$work"/*/lib/libfe2o3_sasl.a)")")
shared=$(find "$built/lib" -name 'libfe2o3_sasl.so.*')
cmp "$built/include/fe2o3_sasl.h" bindings/c/fe2o3_sasl.h ||
    { echo "ci.sh: the archive is not of these sources: check out the tag of its release" >&2; exit 1; }

part() {
    local what=$1 begun
    shift
    begun=$(date +%s)
    "$@" > "$work/log" 2>&1 || { cat "$work/log"; echo "ci.sh: $what failed" >&2; exit 1; }
    echo "$what passed in $(($(date +%s) - begun)) s"
}

in_c() {
    local kind program library
    for kind in static shared; do
        library=$built/lib/libfe2o3_sasl.a
        [ $kind = static ] || library=$shared
        for program in fits scram bodies threads random client server; do
            cc -std=c99 -Wall -Wextra -Wpedantic -O2 -pthread -I"$built/include" -o "$work/$program" \
                "bindings/c/$program.c" "$library" -Wl,-rpath,"$built/lib" || return
        done
        for program in fits scram bodies threads random; do
            echo "$program $kind"
            "$work/$program" || return
        done
        python3 -B bindings/c/tcp.py "$work/client" "$work/server" || return
    done
}

in_python() {
    for tests in bindings/python/test_*.py; do
        FE2O3_SASL_LIB=$shared python3 -B "$tests" || return
    done
}

in_rust() {
    FE2O3_SASL_LIB=$built/lib CARGO_TARGET_DIR=$work/rust cargo test --offline --manifest-path bindings/rust/Cargo.toml
}

part C in_c
part Python in_python
part Rust in_rust
