//! Links the archive that `host/built duart` writes. `DUART_ARCHIVE_DIR` names another folder that holds it. Where
//! there is none, the build stops here with a sentence, and not later in the linker.

use std::env;
use std::path::{Path, PathBuf};
use std::process::{self, Command};

fn main() {
    println!("cargo:rerun-if-env-changed=DUART_ARCHIVE_DIR");
    let here = PathBuf::from(env::var_os("CARGO_MANIFEST_DIR").expect("cargo sets CARGO_MANIFEST_DIR"));
    let named = env::var_os("DUART_ARCHIVE_DIR").unwrap_or_else(|| "../../target/staticlib".into());
    let folder = here.join(named);
    match archive_in(&folder) {
        Ok(archive) => println!("cargo:rerun-if-changed={}", archive.display()),
        Err(sentence) => {
            eprintln!("{sentence}");
            process::exit(1);
        }
    }
    println!("cargo:rustc-link-search=native={}", folder.display());
    println!("cargo:rustc-link-lib=static=duart");
    tell_of_core_error(compiler().unwrap_or(0));
}

/// The archive in this folder, or the sentence that the build stops with.
pub fn archive_in(folder: &Path) -> Result<PathBuf, String> {
    let archive = folder.join("libduart.a");
    if archive.is_file() {
        return Ok(archive);
    }
    Err(format!(
        "duart: there is no libduart.a in {}: run `host/built duart` in the repository's root first, or name the \
         folder that has it in DUART_ARCHIVE_DIR",
        folder.display()
    ))
}

/// `core::error::Error` is there from 1.81 on. From 1.80 on a compiler wants to know the names that `cfg` may ask for;
/// an older cargo would warn of being told.
fn tell_of_core_error(minor: u32) {
    if minor >= 80 {
        println!("cargo:rustc-check-cfg=cfg(core_error)");
    }
    if minor >= 81 {
        println!("cargo:rustc-cfg=core_error");
    }
}

fn compiler() -> Option<u32> {
    let said = Command::new(env::var_os("RUSTC")?).arg("--version").output().ok()?;
    minor_of(&String::from_utf8_lossy(&said.stdout))
}

/// 95 of `rustc 1.95.0 (..)`.
pub fn minor_of(version: &str) -> Option<u32> {
    version.strip_prefix("rustc 1.")?.split('.').next()?.parse().ok()
}
