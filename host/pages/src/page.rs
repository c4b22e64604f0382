//! A page: what it cites in `ticks` and in *italics*, and where its links lead.

use crate::source::files_below;
use std::fs;
use std::io;

pub struct Page {
    pub path: String,
    pub text: String,
}

pub fn read_all() -> io::Result<Vec<Page>> {
    let mut paths = files_below("docs")?;
    paths.retain(|path| path.ends_with(".md"));
    paths.extend(["README.md".to_string(), "CHANGELOG.md".to_string()]);
    let read = |path: String| {
        Ok(Page {
            text: fs::read_to_string(&path)?,
            path,
        })
    };
    paths.into_iter().map(read).collect()
}

impl Page {
    /// A page of the past is held to its links alone: what it names may be gone.
    pub fn is_history(&self) -> bool {
        self.path == "CHANGELOG.md"
            || self.path == "docs/PORT.md"
            || self.path == "docs/DESIGN-PASS.md"
            || self.path.starts_with("docs/landings/")
    }

    /// Each line but those of an indented or fenced piece of text, with its number.
    pub fn lines(&self) -> Vec<(usize, &str)> {
        let mut fenced = false;
        let mut found = Vec::new();
        for (place, line) in self.text.lines().enumerate() {
            if line.starts_with("```") {
                fenced = !fenced;
            } else if !fenced && !line.starts_with("    ") {
                found.push((place + 1, line));
            }
        }
        found
    }
}

/// What stands between two marks of a kind on a line.
fn between(line: &str, mark: char) -> Vec<&str> {
    line.split(mark).skip(1).step_by(2).collect()
}

pub fn ticks(line: &str) -> Vec<&str> {
    let mut found = between(line, '`');
    if line.matches('`').count() % 2 == 1 {
        found.pop();
    }
    found
}

/// The words in *italics*; what stands in ticks is none.
pub fn italics(line: &str) -> Vec<String> {
    let bare: String = line
        .split('`')
        .step_by(2)
        .collect::<Vec<_>>()
        .join(" ")
        .replace("**", " ");
    between(&bare, '*')
        .into_iter()
        .map(str::to_string)
        .collect()
}

/// Where the links of a line lead, `[..](there)` and `[..]: there`, without what follows a `#`.
pub fn links(line: &str) -> Vec<&str> {
    let named = line
        .starts_with('[')
        .then(|| line.split("]: ").nth(1))
        .flatten();
    let targets = line
        .split("](")
        .skip(1)
        .filter_map(|rest| rest.split(')').next())
        .chain(named);
    targets
        .filter_map(|target| target.split('#').next())
        .filter(|target| !target.is_empty())
        .collect()
}

#[cfg(test)]
mod tests {
    use super::*;

    #[test]
    fn what_a_line_cites() {
        let line = "| `one`, `two * three` | *an_edit*, **bold**, *other_edit* | [a](docs/x.md#y), [b](#z) |";
        assert_eq!(ticks(line), ["one", "two * three"]);
        assert_eq!(italics(line), ["an_edit", "other_edit"]);
        assert_eq!(links(line), ["docs/x.md"]);
        assert_eq!(links("[d1]: docs/x.md"), ["docs/x.md"]);
    }

    #[test]
    fn text_in_a_fence_is_not_the_pages() {
        let page = Page {
            path: "docs/x.md".to_string(),
            text: "a\n```\nb\n```\n    c\nd\n".to_string(),
        };
        assert_eq!(page.lines(), [(1, "a"), (6, "d")]);
    }
}
