//! Finds the archive, or builds it, and has it linked. Says so in the cfg `sauskinna_linked`.
//!
//! The folder that `SAUSKINNA_LIB_DIR` names is linked whatever the target is: that the archive is for it is the caller's word.
//! Without the variable it is the repository's archive, for x86-64; for another target nothing is linked.

use std::env;
use std::path::{Path, PathBuf};
use std::process::{exit, Command};

const ARCHIVE: &str = "libsauskinna.a";
const VARIABLE: &str = "SAUSKINNA_LIB_DIR";

fn main() {
    println!("cargo:rustc-check-cfg=cfg(sauskinna_linked)");
    println!("cargo:rerun-if-changed=build.rs");
    println!("cargo:rerun-if-env-changed={VARIABLE}");
    match folder() {
        Ok(Some(folder)) => link(&folder),
        Ok(None) => println!(
            "cargo:warning=the library is not linked: it is for x86-64 (for another one, {VARIABLE} names its folder)"
        ),
        Err(message) => {
            eprintln!("sauskinna: {message}");
            exit(1);
        }
    }
}

fn link(folder: &Path) {
    println!("cargo:rerun-if-changed={}", folder.join(ARCHIVE).display());
    println!("cargo:rustc-link-search=native={}", folder.display());
    println!("cargo:rustc-link-lib=static=sauskinna");
    println!("cargo:rustc-cfg=sauskinna_linked");
}

/// The folder that holds the archive, or none where the target has no library.
fn folder() -> Result<Option<PathBuf>, String> {
    if let Some(folder) = env::var_os(VARIABLE) {
        return named(PathBuf::from(folder)).map(Some);
    }
    if env::var("CARGO_CFG_TARGET_ARCH").as_deref() != Ok("x86_64") {
        return Ok(None);
    }
    let package = env::var("CARGO_MANIFEST_DIR").map_err(|error| error.to_string())?;
    let repository = Path::new(&package).join("..");
    let folder = repository.join("target/staticlib");
    if !folder.join(ARCHIVE).is_file() {
        build(&repository)?;
    }
    Ok(Some(folder))
}

fn named(folder: PathBuf) -> Result<PathBuf, String> {
    if folder.join(ARCHIVE).is_file() {
        Ok(folder)
    } else {
        Err(format!(
            "{VARIABLE} names {}, and no {ARCHIVE} is there",
            folder.display()
        ))
    }
}

fn build(repository: &Path) -> Result<(), String> {
    let failure = match Command::new(repository.join("tools/archive")).status() {
        Ok(status) if status.success() => return Ok(()),
        Ok(status) => status.to_string(),
        Err(error) => error.to_string(),
    };
    Err(format!(
        "no {ARCHIVE}: {VARIABLE} is not set, target/staticlib of the repository has none, and its tools/archive failed: {failure}"
    ))
}
