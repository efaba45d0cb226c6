//! Links the driver in Rust with the static library and the kit's three memory functions, whose paths
//! `make` hands in, with a blank between them.
fn main() {
    println!("cargo:rerun-if-env-changed=SASL_BENCH_ARCHIVES");
    if let Ok(archives) = std::env::var("SASL_BENCH_ARCHIVES") {
        for archive in archives.split(' ') {
            println!("cargo:rerun-if-changed={archive}");
            println!("cargo:rustc-link-arg-bin=rust_driver={archive}");
        }
    }
}
