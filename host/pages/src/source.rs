//! What stands in the repository: every word of its source, its files, and the crates' routines, edits and refutations.

use crate::edits::{self, Edit};
use crate::routines::{self, Routine};
use std::collections::BTreeSet;
use std::fs;
use std::io;
use std::path::Path;

#[derive(Default)]
pub struct Source {
    pub routines: Vec<Routine>,
    pub edits: Vec<Edit>,
    pub refutations: BTreeSet<String>,
    /// every word of a source file, and every name of a file or folder
    pub words: BTreeSet<String>,
    pub paths: BTreeSet<String>,
}

/// A letter of a name, in Rust or in a proof.
pub fn in_name(letter: char) -> bool {
    letter.is_alphanumeric() || "_-'′".contains(letter)
}

/// The files below a folder, by their paths, in order.
pub fn files_below(folder: &str) -> io::Result<Vec<String>> {
    let mut found = Vec::new();
    if !Path::new(folder).is_dir() {
        return Ok(found);
    }
    for entry in fs::read_dir(folder)? {
        let path = entry?.path();
        let name = path.to_string_lossy().into_owned();
        if path.is_dir() {
            found.push(name.clone());
            found.extend(files_below(&name)?);
        } else {
            found.push(name);
        }
    }
    found.sort();
    Ok(found)
}

fn is_source(path: &str) -> bool {
    let ends = [
        ".rt",
        ".antt",
        ".rs",
        ".h",
        ".c",
        ".toml",
        ".txt",
        "/test",
        "/stdin",
        "/stdout",
        "/gate-order",
        "/machine",
        "/cross-tools",
        "/install",
        "/dist",
    ];
    ends.iter().any(|end| path.ends_with(end))
}

/// Where refutations stand: of wrong answers, of wrong parts, of wrong chips.
fn refutes(path: &str) -> bool {
    path.ends_with("/ShutOut.antt")
        || path.contains("/proofs/Wrong")
        || path.contains("/demands_shut_out/proofs/")
}

/// `no_..`, a refutation: a name that a colon follows.
pub fn refutations_of(text: &str) -> Vec<String> {
    let name_of = |line: &str| {
        let line = line.trim_start();
        let line = line.strip_prefix("pub ").unwrap_or(line);
        let name = line.split_whitespace().next()?;
        (name.starts_with("no_") && line[name.len()..].starts_with(" :")).then(|| name.to_string())
    };
    text.lines().filter_map(name_of).collect()
}

impl Source {
    pub fn read() -> io::Result<Source> {
        let mut source = Source::default();
        for folder in ["crates", "host", "include", "examples", "docs", ".ci"] {
            for path in files_below(folder)? {
                source.take(path)?;
            }
        }
        for path in ["crates.txt", "test", "README.md", "CHANGELOG.md", "LICENSE"] {
            source.take(path.to_string())?;
        }
        source.edits = edits::read(&source.paths)?;
        source.routines = routines::read(&source.paths)?;
        Ok(source)
    }

    fn take(&mut self, path: String) -> io::Result<()> {
        let last = path.rsplit('/').next().unwrap_or(&path).to_string();
        self.words.insert(last);
        if is_source(&path) && Path::new(&path).is_file() {
            let text = fs::read_to_string(&path)?;
            self.words
                .extend(text.split(|letter| !in_name(letter)).map(str::to_string));
            if refutes(&path) {
                self.refutations.extend(refutations_of(&text));
            }
        }
        self.paths.insert(path);
        Ok(())
    }
}

#[cfg(test)]
mod tests {
    use super::*;

    #[test]
    fn a_refutation_is_a_name_with_a_type() {
        let text = "pub no_idles : Demand3 c → ⊥\nno_idles h = x\n  pub no_other : ⊥\n-- no_comment :\nuse X.{no_use}\n";
        assert_eq!(refutations_of(text), ["no_idles", "no_other"]);
    }
}
