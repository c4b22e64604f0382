//! The routines of the libraries: the exported ones, and those beside them that an edit stands for, each with what its
//! `ensures` say.

use std::collections::{BTreeMap, BTreeSet};
use std::fs;
use std::io;

pub struct Routine {
    pub crate_name: String,
    pub name: String,
    pub exported: bool,
    /// each `ensures`: its label, if it has one, and what it says
    pub ensures: Vec<(String, String)>,
    pub file: String,
    /// from its `fn` to its last brace
    pub text: String,
}

/// The names that a crate exports, from its lib.rt: those that it passes on, and those that it declares itself.
pub fn exported(lib: &str) -> BTreeSet<String> {
    let items = lib.split("\npub use ").skip(1);
    let names = items.filter_map(|rest| rest.split(';').next()?.rsplit("::").next());
    names
        .flat_map(|names| names.split(['{', '}', ','].as_slice()))
        .map(str::trim)
        .filter(|name| !name.is_empty())
        .chain(lib.lines().filter_map(declared))
        .map(str::to_string)
        .collect()
}

/// The name of what a line declares as public.
fn declared(line: &str) -> Option<&str> {
    let rest = line.strip_prefix("pub ")?;
    let (kind, rest) = rest.split_once(' ')?;
    let name = rest
        .split(|c: char| !c.is_alphanumeric() && c != '_')
        .next()?;
    matches!(kind, "fn" | "struct" | "enum" | "const").then_some(name)
}

/// The functions of a file, each from its first line to the line `}` that ends it; a method of a type's own `impl` is
/// `Type::name`. (What a trait's `impl` promises stands in its ghost members.)
pub fn functions(text: &str) -> Vec<(String, String)> {
    let mut found = Vec::new();
    let mut of_type = None;
    let mut lines = text.lines();
    while let Some(line) = lines.next() {
        if line.starts_with("impl") {
            of_type = type_of(line);
        } else if line == "}" {
            of_type = None;
        }
        let inside = line.strip_prefix("    ").filter(|_| of_type.is_some());
        let name = match (name_of(inside.unwrap_or(line)), &of_type) {
            (Some(name), Some(of_type)) => format!("{of_type}::{name}"),
            (Some(name), None) => name,
            (None, _) => continue,
        };
        let end = if inside.is_some() { "    }" } else { "}" };
        let mut body = format!("{line}\n");
        for next in lines.by_ref() {
            body.push_str(next);
            body.push('\n');
            if next == end {
                break;
            }
        }
        found.push((name, body));
    }
    found
}

/// The type of an `impl` that is of no trait.
fn type_of(line: &str) -> Option<String> {
    let rest = line.strip_prefix("impl")?;
    if rest.contains(" for ") {
        return None;
    }
    let rest = match rest.strip_prefix('<') {
        Some(bounds) => bounds.split_once("> ")?.1,
        None => rest,
    };
    Some(rest.trim().split(['<', ' ']).next()?.to_string())
}

fn name_of(line: &str) -> Option<String> {
    let line = line.strip_prefix("pub ").unwrap_or(line);
    let line = line.strip_prefix("extern \"C\" ").unwrap_or(line);
    let name = line.strip_prefix("fn ")?;
    Some(name.split(['(', '<']).next()?.to_string())
}

/// What stands between the braces after each `ensures`, on one line, with the label between.
pub fn ensures(function: &str) -> Vec<(String, String)> {
    let mut found = Vec::new();
    let left = if function.starts_with(' ') { "    " } else { "" };
    let head = function
        .split(&format!("\n{left}{{\n"))
        .next()
        .unwrap_or(function);
    for part in head.split(&format!("\n{left}    ensures")).skip(1) {
        let label = part.split('{').next().unwrap_or("").trim().to_string();
        let said = part
            .split_once('{')
            .and_then(|(_, rest)| rest.rsplit_once('}'))
            .map_or("", |(said, _)| said);
        found.push((label, said.split_whitespace().collect::<Vec<_>>().join(" ")));
    }
    found
}

fn of_crate(crate_name: &str, lib: &str, files: &BTreeMap<String, String>) -> Vec<Routine> {
    let public = exported(lib);
    let mut found = Vec::new();
    for (file, text) in files {
        for (name, function) in functions(text) {
            found.push(Routine {
                crate_name: crate_name.to_string(),
                exported: match name.split_once("::") {
                    Some((of_type, _)) => {
                        public.contains(of_type) && function.starts_with("    pub ")
                    }
                    None => public.contains(&name),
                },
                ensures: ensures(&function),
                file: file.clone(),
                text: function,
                name,
            });
        }
    }
    found
}

pub fn read(paths: &BTreeSet<String>) -> io::Result<Vec<Routine>> {
    let mut found = Vec::new();
    for lib in paths
        .iter()
        .filter(|path| path.starts_with("crates/") && path.ends_with("/src/lib.rt"))
    {
        let folder = lib.strip_suffix("lib.rt").unwrap_or(lib);
        let crate_name = lib.split('/').nth(1).unwrap_or("");
        let mut files = BTreeMap::new();
        for path in paths
            .iter()
            .filter(|path| path.starts_with(folder) && path.ends_with(".rt"))
        {
            files.insert(path.clone(), fs::read_to_string(path)?);
        }
        found.extend(of_crate(crate_name, &fs::read_to_string(lib)?, &files));
    }
    Ok(found)
}

#[cfg(test)]
mod tests {
    use super::*;

    const TEXT: &str = "// one\npub fn one(a: u8) -> u8\n    ensures { result ≡ one_of a }\n{\n    a\n}\n\nfn two(s: &mut [u8])\n    \
        ensures answer { result ≡ x\n        y }\n    ensures space { z }\n{\n}\n";

    #[test]
    fn functions_and_what_they_ensure() {
        let found = functions(TEXT);
        assert_eq!(
            found
                .iter()
                .map(|(name, _)| name.as_str())
                .collect::<Vec<_>>(),
            ["one", "two"]
        );
        assert_eq!(
            ensures(&found[0].1),
            [("".to_string(), "result ≡ one_of a".to_string())]
        );
        let two = [
            ("answer".to_string(), "result ≡ x y".to_string()),
            ("space".to_string(), "z".to_string()),
        ];
        assert_eq!(ensures(&found[1].1), two);
    }

    #[test]
    fn methods() {
        let text = "impl Page<'_> {\n    // a byte\n    pub fn put(&mut self, byte: u8)\n        ensures { w byte }\n    {\n    }\n}\n\n\
            impl From<A> for B {\n    fn from(a: A) -> B {\n    }\n}\n\nfn last()\n    ensures { z }\n{\n}\n";
        let found = functions(text);
        assert_eq!(
            found
                .iter()
                .map(|(name, _)| name.as_str())
                .collect::<Vec<_>>(),
            ["Page::put", "last"]
        );
        assert_eq!(
            ensures(&found[0].1),
            [("".to_string(), "w byte".to_string())]
        );
    }

    #[test]
    fn exported_names() {
        let lib = "mod a;\npub use a::one;\npub use b::{\n    Type, two,\n};\n";
        assert_eq!(
            exported(lib).into_iter().collect::<Vec<_>>(),
            ["Type", "one", "two"]
        );
        let lib = "use a::b;\n\npub struct Input<R> {\n    pub input: R,\n}\n\npub fn three() -> u8\n{\n}\n";
        assert_eq!(
            exported(lib).into_iter().collect::<Vec<_>>(),
            ["Input", "three"]
        );
    }
}
