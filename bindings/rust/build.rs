//! Links libfe2o3_sasl.a. The folder with it is the first of these that has one: the folder that FE2O3_SASL_LIB names,
//! `lib` beside this file, the folder of the file for pkg-config, and `build` of the repository. On docs.rs, which links
//! nothing, no library is needed.

use std::env;
use std::path::{Path, PathBuf};
use std::process::Command;

const ARCHIVE: &str = "libfe2o3_sasl.a";

/// What selects the library that pkg-config finds.
const PKG_CONFIG: [&str; 4] = ["PKG_CONFIG", "PKG_CONFIG_PATH", "PKG_CONFIG_LIBDIR", "PKG_CONFIG_SYSROOT_DIR"];

/// Returns the folder if the archive is in it, and otherwise where the archive is not.
fn has_archive(folder: PathBuf) -> Result<PathBuf, String> {
    let archive = folder.join(ARCHIVE);
    if archive.is_file() {
        Ok(folder)
    } else {
        Err(format!("{} is not there", archive.display()))
    }
}

/// Asks the program pkg-config for the library of this crate's version, since its structs have to fit.
fn by_pkg_config() -> Result<PathBuf, String> {
    let program = env::var_os("PKG_CONFIG").unwrap_or_else(|| "pkg-config".into());
    let library = concat!("fe2o3_sasl = ", env!("CARGO_PKG_VERSION"));
    let asked = Command::new(&program).args(["--print-errors", "--variable=libdir", library]).output();
    let asked = asked.map_err(|error| format!("the program {} did not start: {error}", program.to_string_lossy()))?;
    if !asked.status.success() {
        let said = String::from_utf8_lossy(&asked.stderr);
        return Err(format!("pkg-config does not know `{library}`: {}", said.lines().collect::<Vec<_>>().join(" ")));
    }
    let folder = PathBuf::from(String::from_utf8_lossy(&asked.stdout).trim());
    // (some pkg-config write the folder of a variable with the root of another system, and some without it)
    let root = env::var_os("PKG_CONFIG_SYSROOT_DIR").unwrap_or_default();
    let in_root = Path::new(&root).join(folder.strip_prefix("/").unwrap_or(&folder));
    has_archive(in_root).or_else(|_| has_archive(folder))
}

/// A way to find the folder with the archive, from the folder of this crate.
type Way = fn(&Path) -> Result<PathBuf, String>;

fn folder() -> Result<PathBuf, Vec<String>> {
    if let Some(folder) = env::var_os("FE2O3_SASL_LIB").filter(|folder| !folder.is_empty()) {
        return has_archive(PathBuf::from(folder)).map_err(|why| vec![format!("FE2O3_SASL_LIB: {why}")]);
    }
    let here = PathBuf::from(env::var_os("CARGO_MANIFEST_DIR").expect("cargo sets it"));
    let mut tried = vec!["FE2O3_SASL_LIB: not set".to_string()];
    let ways: [(&str, Way); 3] = [
        ("packed with this crate", |here| has_archive(here.join("lib"))),
        ("pkg-config", |_| by_pkg_config()),
        ("the repository", |here| has_archive(here.join("../../build"))),
    ];
    for (way, find) in ways {
        match find(&here) {
            Ok(folder) => return Ok(folder),
            Err(why) => tried.push(format!("{way}: {why}")),
        }
    }
    Err(tried)
}

fn main() {
    println!("cargo:rerun-if-changed=build.rs");
    for name in PKG_CONFIG.iter().chain(&["FE2O3_SASL_LIB", "DOCS_RS"]) {
        println!("cargo:rerun-if-env-changed={name}");
    }
    match folder() {
        Ok(folder) => {
            println!("cargo:rerun-if-changed={}", folder.join(ARCHIVE).display());
            println!("cargo:rustc-link-search=native={}", folder.display());
            println!("cargo:rustc-link-lib=static=fe2o3_sasl");
        }
        Err(_) if env::var_os("DOCS_RS").is_some() => {}
        Err(tried) => {
            eprintln!("error: found no {ARCHIVE} for the crate fe2o3-sasl-proved. Tried, in this order:");
            tried.iter().for_each(|one| eprintln!("  - {one}"));
            eprintln!("`make lib` of the repository builds it. Set FE2O3_SASL_LIB to the folder with it.");
            std::process::exit(1);
        }
    }
}
