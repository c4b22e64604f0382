//! What the build script says, asked of its own text.

#[allow(dead_code)] // its `main`, which cargo calls
#[path = "../build.rs"]
mod build;

use build::{archive_in, minor_of};
use std::path::Path;

#[test]
fn a_folder_without_the_archive_stops_the_build_with_a_sentence() {
    let folder = Path::new(env!("CARGO_MANIFEST_DIR")).join("src");
    let sentence = archive_in(&folder).expect_err("the archive is not among the source");
    assert!(sentence.starts_with("duart: there is no libduart.a in "));
    assert!(sentence.contains("run `host/built duart`") && sentence.contains("DUART_ARCHIVE_DIR"));
    assert_eq!(sentence.lines().count(), 1);
}

#[test]
fn the_folder_that_has_it_is_taken() {
    let built = Path::new(env!("CARGO_MANIFEST_DIR")).join("../../target/staticlib");
    let folder = option_env!("DUART_ARCHIVE_DIR").map_or(built, Into::into);
    assert_eq!(archive_in(&folder), Ok(folder.join("libduart.a")));
}

#[test]
fn a_compiler_says_how_old_it_is() {
    assert_eq!(minor_of("rustc 1.63.0 (Debian)"), Some(63));
    assert_eq!(minor_of("rustc 1.96.0-nightly (0a1b2c3d4 2026-03-21)"), Some(96));
    assert_eq!(minor_of("another 1.95.0"), None);
}
