//! Links `libcontroller.a`, and with the feature `replay` `libreplay.a` too, from the directory that `TIMESYNC_LIB_DIR` names, or else from
//! `../target/staticlib`. The archives hold machine code for x86-64 Linux: any other target, and an archive that is not there, is an error
//! that says so.

use std::env;
use std::path::{Path, PathBuf};

/// The target that the archives are built for, as cargo and as people name it.
const ARCH: &str = "x86_64";
const OS: &str = "linux";
const TARGET: &str = "x86-64 Linux";

fn variable(name: &str) -> String {
    env::var(name).unwrap_or_default()
}

/// An error that names the target, where the archives are not for it.
fn target_error() -> Option<String> {
    let fits = variable("CARGO_CFG_TARGET_ARCH") == ARCH && variable("CARGO_CFG_TARGET_OS") == OS;
    (!fits).then(|| {
        format!(
            "this crate links archives of machine code for {TARGET}, and cannot be built for {}",
            variable("TARGET")
        )
    })
}

fn link(dir: &Path, name: &str) {
    let archive = dir.join(format!("lib{name}.a"));
    println!("cargo::rerun-if-changed={}", archive.display());
    println!("cargo::rustc-link-lib=static={name}");
    if !archive.is_file() {
        println!(
            "cargo::error=there is no {}: build it with `tools/archives.sh`, or name its directory in TIMESYNC_LIB_DIR",
            archive.display()
        );
    }
}

fn main() {
    println!("cargo::rerun-if-env-changed=TIMESYNC_LIB_DIR");
    println!("cargo::rerun-if-changed=build.rs");
    if let Some(error) = target_error() {
        println!("cargo::error={error}");
        return;
    }
    let dir = match env::var_os("TIMESYNC_LIB_DIR") {
        Some(dir) => PathBuf::from(dir),
        None => PathBuf::from(variable("CARGO_MANIFEST_DIR")).join("../target/staticlib"),
    };
    println!("cargo::rustc-link-search=native={}", dir.display());
    link(&dir, "controller");
    if env::var_os("CARGO_FEATURE_REPLAY").is_some() {
        link(&dir, "replay");
    }
}
