//! What is wrong with the pages: a name, path or link that leads nowhere, an edit, refutation or routine that no page
//! cites, a line that is too long.

use crate::page::{italics, links, ticks, Page};
use crate::source::{in_name, Source};
use std::collections::BTreeSet;

/// No line of a page is longer.
const WIDTH: usize = 200;

const ROOTS: [&str; 6] = ["crates/", "host/", "docs/", "include/", "examples/", ".ci/"];
const PARTS: [&str; 4] = ["src/", "specs/", "proofs/", "must-fail/"];

/// Whether a path that a page cites is there: from the root, or in some crate.
fn is_there(source: &Source, path: &str) -> bool {
    let path = path.trim_end_matches('/');
    if PARTS.iter().any(|part| path.starts_with(part)) {
        return source
            .paths
            .iter()
            .any(|there| there.starts_with("crates/") && there.ends_with(&format!("/{path}")));
    }
    source.paths.contains(path)
}

/// A path is one from the root or in a crate; other text with a stroke in it, or with a NAME to fill in, is none.
fn is_path(text: &str) -> bool {
    let plain = !text.contains(|letter: char| letter.is_whitespace() || "*{<".contains(letter));
    let open = ["NAME", "MODULE", "FUNCTION", "CRATE", "EDIT"]
        .iter()
        .any(|word| text.contains(word));
    plain
        && !open
        && (ROOTS.iter().chain(&PARTS))
            .any(|start| text.starts_with(start) && text.len() > start.len())
}

fn is_name(text: &str) -> bool {
    text.starts_with(|letter: char| letter.is_ascii_alphabetic()) && text.chars().all(in_name)
}

fn tick_fault(source: &Source, text: &str) -> Option<String> {
    if is_path(text) {
        return (!is_there(source, text)).then(|| format!("path {text} is not there"));
    }
    let parts: Vec<&str> = text.split("::").collect();
    let lost = parts
        .iter()
        .find(|part| is_name(part) && !source.words.contains(**part))?;
    Some(format!("`{lost}` stands nowhere"))
}

fn link_fault(source: &Source, page: &Page, target: &str) -> Option<String> {
    if target.contains("://") {
        return None;
    }
    let mut folder: Vec<&str> = page.path.split('/').collect();
    folder.pop();
    for part in target.trim_end_matches('/').split('/') {
        match part {
            ".." => drop(folder.pop()),
            "." => {}
            name => folder.push(name),
        }
    }
    let path = folder.join("/");
    (!source.paths.contains(&path)).then(|| format!("link to {target}: there is no {path}"))
}

fn line_faults(source: &Source, page: &Page, line: &str) -> Vec<String> {
    let mut found: Vec<String> = links(line)
        .into_iter()
        .filter_map(|target| link_fault(source, page, target))
        .collect();
    if page.is_history() {
        return found;
    }
    if line.chars().count() > WIDTH {
        found.push(format!("a line of {} columns", line.chars().count()));
    }
    found.extend(
        ticks(line)
            .into_iter()
            .filter_map(|text| tick_fault(source, text)),
    );
    let is_edit = |name: &String| source.edits.iter().any(|edit| edit.name == *name);
    let named = italics(line)
        .into_iter()
        .filter(|name| is_name(name) && name.contains('_'));
    found.extend(
        named
            .filter(|name| !is_edit(name))
            .map(|name| format!("there is no edit {name}")),
    );
    found
}

/// What the pages of today cite, in ticks and in italics.
fn cited(pages: &[Page]) -> BTreeSet<String> {
    let mut found = BTreeSet::new();
    for page in pages.iter().filter(|page| !page.is_history()) {
        for (_, line) in page.lines() {
            found.extend(italics(line));
            for text in ticks(line) {
                found.extend(text.split("::").map(str::to_string));
                found.insert(text.to_string());
            }
        }
    }
    found
}

/// The edits, refutations and public routines, each with what it is.
fn owed(source: &Source) -> Vec<(&'static str, &str)> {
    let edits = source.edits.iter().map(|edit| ("edit", edit.name.as_str()));
    let refutations = source
        .refutations
        .iter()
        .map(|name| ("refutation", name.as_str()));
    let public = source.routines.iter().filter(|routine| routine.exported);
    edits
        .chain(refutations)
        .chain(public.map(|routine| ("public routine", routine.name.as_str())))
        .collect()
}

pub fn of(source: &Source, pages: &[Page]) -> Vec<String> {
    let mut found = Vec::new();
    for page in pages {
        for (number, line) in page.lines() {
            found.extend(
                line_faults(source, page, line)
                    .into_iter()
                    .map(|fault| format!("{}:{number}: {fault}", page.path)),
            );
        }
    }
    let cited = cited(pages);
    let lost = owed(source)
        .into_iter()
        .filter(|(_, name)| !cited.contains(*name));
    found.extend(lost.map(|(kind, name)| format!("no page cites the {kind} {name}")));
    found
}

pub fn count(source: &Source, pages: &[Page]) -> String {
    let public = source
        .routines
        .iter()
        .filter(|routine| routine.exported)
        .count();
    let (edits, refutations) = (source.edits.len(), source.refutations.len());
    format!("{} pages cite {edits} edits, {refutations} refutations and {public} public routines, and nothing that is not there", pages.len())
}

#[cfg(test)]
mod tests {
    use super::*;
    use crate::edits::Edit;

    fn source() -> Source {
        let set = |names: &[&str]| {
            names
                .iter()
                .map(|name| name.to_string())
                .collect::<BTreeSet<String>>()
        };
        Source {
            edits: vec![Edit {
                name: "an_edit".to_string(),
                file: String::new(),
                olds: Vec::new(),
            }],
            refutations: set(&["no_idles"]),
            words: set(&["step_of", "no_idles"]),
            paths: set(&["crates/a/src/lib.rt", "docs/x.md", "README.md"]),
            ..Source::default()
        }
    }

    fn faults(path: &str, text: &str) -> Vec<String> {
        of(
            &source(),
            &[Page {
                path: path.to_string(),
                text: text.to_string(),
            }],
        )
    }

    #[test]
    fn what_is_right_has_no_fault() {
        let text = "`step_of`, `crates/a/src/lib.rt`, `src/lib.rt`, *an_edit*, `no_idles`, [x](x.md), [r](../README.md)\n";
        assert_eq!(faults("docs/y.md", text), Vec::<String>::new());
    }

    #[test]
    fn each_fault_is_told() {
        let long = "x".repeat(201);
        let text = format!(
            "*an_edit* `no_idles`\n`stepOver`\n`src/main.rt`\n*no_edit*\n[z](z.md)\n{long}\n"
        );
        let told = [
            "docs/y.md:2: `stepOver` stands nowhere",
            "docs/y.md:3: path src/main.rt is not there",
            "docs/y.md:4: there is no edit no_edit",
            "docs/y.md:5: link to z.md: there is no docs/z.md",
            "docs/y.md:6: a line of 201 columns",
        ];
        assert_eq!(faults("docs/y.md", &text), told);
    }

    #[test]
    fn what_no_page_cites_is_told() {
        let told = [
            "no page cites the edit an_edit",
            "no page cites the refutation no_idles",
        ];
        assert_eq!(faults("docs/y.md", "`step_of`\n"), told);
        assert_eq!(
            faults("docs/landings/y.md", "*an_edit* `no_idles` `gone`\n"),
            told
        );
    }
}
