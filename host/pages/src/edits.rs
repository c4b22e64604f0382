//! The must-fail edits: of which crate and file, and the texts that each replaces.

use std::collections::BTreeSet;
use std::fs;
use std::io;

pub struct Edit {
    pub name: String,
    /// the file that it changes, from the repository's root
    pub file: String,
    pub olds: Vec<String>,
}

/// `crates/NAME/must-fail/EDIT.edit`: NAME and EDIT.
fn place(path: &str) -> Option<(&str, &str)> {
    let rest = path.strip_prefix("crates/")?;
    let (name, rest) = rest.split_once("/must-fail/")?;
    Some((name, rest.strip_suffix(".edit")?))
}

/// What follows a word at the beginning of a line, for each such line.
fn after(text: &str, word: &str) -> Vec<String> {
    text.lines()
        .filter_map(|line| line.strip_prefix(word))
        .map(str::to_string)
        .collect()
}

pub fn read(paths: &BTreeSet<String>) -> io::Result<Vec<Edit>> {
    let mut edits = Vec::new();
    for path in paths {
        let (crate_name, name) = match place(path) {
            Some(found) => found,
            None => continue,
        };
        let text = fs::read_to_string(path)?;
        edits.push(Edit {
            name: name.to_string(),
            file: format!("crates/{crate_name}/{}", after(&text, "file: ").concat()),
            olds: after(&text, "old: "),
        });
    }
    Ok(edits)
}
