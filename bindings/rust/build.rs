//! Finds libfolugben.a: in the folder that `FOLUGBEN_LIB_DIR` names, in the installed tree of which the crate is a part, in the
//! place to which `./build_c` writes it in a checkout, or by pkg-config.
use std::path::{Path, PathBuf};
use std::process::Command;
use std::{env, fs};

const ARCHIVE: &str = "libfolugben.a";

fn candidates() -> Vec<PathBuf> {
    let here = PathBuf::from(env::var_os("CARGO_MANIFEST_DIR").unwrap_or_default());
    match env::var_os("FOLUGBEN_LIB_DIR") {
        Some(folder) => vec![PathBuf::from(folder)],
        None if is_installed(&here) => vec![here.join("../../../lib")],
        None => vec![here.join("../out")],
    }
}

/// Whether the crate is in the tree of a release, and not below a folder in which anybody may have put a library.
fn is_installed(here: &Path) -> bool {
    here.ends_with("share/folugben/rust") && here.join("../../../include/folugben.h").is_file()
}

fn installed() -> Option<PathBuf> {
    let output = Command::new("pkg-config").args(["--variable=libdir", "folugben"]).output().ok()?;
    let folder = PathBuf::from(String::from_utf8(output.stdout).ok()?.trim());
    folder.join(ARCHIVE).is_file().then_some(folder)
}

fn main() {
    println!("cargo::rerun-if-env-changed=FOLUGBEN_LIB_DIR");
    println!("cargo::rerun-if-changed=build.rs");
    let found = candidates().into_iter().find(|it| it.join(ARCHIVE).is_file()).or_else(installed);
    let Some(folder) = found else {
        println!(
            "cargo::error={ARCHIVE} wasn't found: let FOLUGBEN_LIB_DIR name the folder that has it (./build_c leaves it in bindings/out)"
        );
        return;
    };
    let folder = fs::canonicalize(&folder).unwrap_or(folder);
    println!("cargo::rerun-if-changed={}", folder.join(ARCHIVE).display());
    println!("cargo::rustc-link-search=native={}", folder.display());
    println!("cargo::rustc-link-lib=static=folugben");
}
