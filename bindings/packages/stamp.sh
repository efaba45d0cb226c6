#!/bin/sh
# Makes `cargo build` see another archive in the place of one that it has linked: `stamp.sh CRATE`, an unpacked crate with
# its archive in lib. A file lib/SHA-256 is named after the archive's bytes, and the build script asks for it: if it is gone,
# cargo runs the build script again, whatever the times of the files are.
set -eu
cd "$1"
sum=$(sha256sum lib/libfe2o3_sasl.a | cut -d ' ' -f 1)
: > "lib/$sum"
place='    println!("cargo:rerun-if-changed=build.rs");'
[ "$(grep -cxF "$place" build.rs)" = 1 ] || { echo "stamp.sh: build.rs has no line for the stamp" >&2; exit 1; }
sed "s|^$place\$|&\\n    println!(\"cargo:rerun-if-changed=lib/$sum\");|" build.rs > build.rs.new
mv build.rs.new build.rs
