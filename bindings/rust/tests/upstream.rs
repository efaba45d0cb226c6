//! Files of the crate fe2o3-amqp over this one: compiled with the changes below, and a login by each of them. FE2O3_AMQP
//! names the folder of that crate; where it is not set nothing is tried.

use std::fs;
use std::path::{Path, PathBuf};
use std::process::Command;

const UNCHANGED: [&str; 2] = ["sasl_profile/scram.rs", "acceptor/sasl_acceptor.rs"];

/// A text with these words, which occur in it once, replaced by others.
fn changed(text: &str, words: &str, others: &str) -> String {
    assert_eq!(text.matches(words).count(), 1, "{}", words);
    text.replace(words, others)
}

/// The profile: the kind has no value of its own.
fn profile(text: &str) -> String {
    changed(text, ".map_err(ScramErrorKind::Utf8Error)", ".map_err(|_| ScramErrorKind::Utf8Error)")
}

/// The acceptor: in place of the credential, which hashes by itself, the one of this crate.
fn acceptor(text: &str) -> String {
    let text = changed(text, "use rand::RngExt;\n", "");
    let (head, rest) = text.split_once("use crate::auth::{\n").unwrap();
    let (_, rest) = rest.split_once("\n};\n").unwrap();
    let (uses, rest) = rest.split_once("/// Single SCRAM credential\n").unwrap();
    let (_, rest) = rest.split_once("\nimpl<C> SaslAcceptor for ScramAuthenticator<C>\n").unwrap();
    format!(
        "{}use crate::auth::scram::{{ScramAuthenticator, ScramCredentialProvider}};\n{}\
         pub use crate::auth::scram::SingleScramCredential;\n\n\
         impl<C> SaslAcceptor for ScramAuthenticator<C>\n{}",
        head, uses, rest
    )
}

/// A crate of these files in a folder of the tests.
fn write_crate(upstream: &Path, folder: &Path) {
    let (from, to) = (upstream.join("src"), folder.join("src"));
    let read = |name: &str| fs::read_to_string(from.join(name)).unwrap_or_else(|why| panic!("{}: {}", name, why));
    let write = |name: &str, text: &str| fs::write(to.join(name), text).unwrap();
    fs::create_dir_all(to.join("sasl_profile")).unwrap();
    fs::create_dir_all(to.join("acceptor")).unwrap();
    for name in UNCHANGED {
        write(name, &read(name));
    }
    write("sasl_profile/mod.rs", &profile(&read("sasl_profile/mod.rs")));
    write("acceptor/scram.rs", &acceptor(&read("acceptor/scram.rs")));
    write("sasl_profile/error.rs", include_str!("upstream_stand_in/error.rs.txt"));
    write("main.rs", include_str!("upstream_stand_in/main.rs.txt"));
    let manifest = format!(
        "[package]\nname = \"upstream\"\nversion = \"0.0.0\"\nedition = \"2021\"\n\
         [features]\ndefault = [\"scram\"]\nscram = []\n\
         [dependencies]\nfe2o3-sasl-proved = {{ path = {:?} }}\n[workspace]\n",
        env!("CARGO_MANIFEST_DIR")
    );
    fs::write(folder.join("Cargo.toml"), manifest).unwrap();
}

#[test]
fn logins_by_the_files_of_fe2o3_amqp() {
    let upstream = match std::env::var_os("FE2O3_AMQP") {
        Some(upstream) => PathBuf::from(upstream),
        None => return println!("FE2O3_AMQP is not set: not tried"),
    };
    let folder = Path::new(env!("CARGO_TARGET_TMPDIR")).join("upstream");
    write_crate(&upstream, &folder);
    let ran = Command::new(env!("CARGO"))
        .args(["run", "--quiet", "--offline"])
        .env("CARGO_TARGET_DIR", folder.join("target"))
        .current_dir(&folder)
        .output()
        .unwrap();
    let errors = String::from_utf8_lossy(&ran.stderr);
    assert!(ran.status.success(), "{}", errors);
    let wanted = "SCRAM-SHA-1 Ok Auth\nSCRAM-SHA-256 Ok Auth\nSCRAM-SHA-512 Ok Auth\n";
    assert_eq!(String::from_utf8_lossy(&ran.stdout), wanted);
}
