//! Links the proved engine's archive.
//!
//! It is looked for in `../target/staticlib`, where `rust/archive` makes it, or in
//! the folder that the environment variable MARGIN_ENGINE_LIB names (a relative
//! name counts from this package's folder), such as the `lib` of an installation.
//! With the feature `timed` the benchmark's archive is linked too, from there.

use std::env;
use std::path::{Path, PathBuf};
use std::process::exit;

/// The archive's names: as it is built, and as it is installed.
const NAMES: [&str; 2] = ["abi", "margin_engine"];

/// The benchmark's, which is not installed.
const TIMED: [&str; 1] = ["timed"];

fn main() {
    println!("cargo:rerun-if-env-changed=MARGIN_ENGINE_LIB");

    let package = PathBuf::from(env::var_os("CARGO_MANIFEST_DIR").expect("set by cargo"));
    let named = env::var_os("MARGIN_ENGINE_LIB").filter(|folder| !folder.is_empty());
    let folder = match named {
        Some(folder) => package.join(folder),
        None => package.join("..").join("target").join("staticlib"),
    };

    println!("cargo:rustc-link-search=native={}", folder.display());
    link(&folder, &NAMES, "rust/archive");
    if env::var_os("CARGO_FEATURE_TIMED").is_some() {
        link(&folder, &TIMED, "rust/archive timed");
    }
}

/// Links the archive that has one of these names, the first that is there, and which
/// this command makes.
fn link(folder: &Path, names: &[&str], command: &str) {
    let archive = |name: &str| folder.join(format!("lib{name}.a"));
    let Some(name) = names.iter().find(|name| archive(name).is_file()) else {
        let missing = archive(names[0]);
        eprintln!(
            "The proved engine's archive is missing: {}",
            missing.display()
        );
        eprintln!("Make it with `{command}` in the project's root,");
        eprintln!("or name its folder in the environment variable MARGIN_ENGINE_LIB.");
        println!("cargo:rerun-if-changed={}", missing.display());
        exit(1);
    };
    println!("cargo:rerun-if-changed={}", archive(name).display());
    println!("cargo:rustc-link-lib=static={name}");
}
