//! docs/promises/routines.md: the public routines, what each answers, and the edit that ties its contract to its code.

use crate::edits::Edit;
use crate::routines::Routine;
use crate::source::Source;
use std::fs;

const HEAD: &str = "# Routine by routine

Made by `pages routines` (host/pages) from the `ensures` of the source; the host's tests compare. One row an `ensures`: the
routine's answer is `result`, what a lent space holds before and after is `space.old` and `space.new`. The edit
in *italics* changes the routine, and the checker refuses it. A routine in brackets is not exported from its crate.

| crate | routine | ensures | edits |
|---|---|---|---|
";

const WIDTH: usize = 200;

/// Whether an edit is one of this routine's: it changes the routine's text, or a table that the routine reads, be it an
/// enum whose numbers a method answers.
fn is_of(edit: &Edit, routine: &Routine) -> bool {
    let source = fs::read_to_string(&edit.file).unwrap_or_default();
    let here = |old: &String| {
        routine.text.contains(old)
            || is_in_table_of(&source, old, routine)
            || is_in_enum_of(&source, old, routine)
    };
    edit.file == routine.file && edit.olds.iter().any(here)
}

/// The edit's text stands first in a `static` of the file, and the routine reads that table.
fn is_in_table_of(text: &str, old: &str, routine: &Routine) -> bool {
    let before = match text.find(old) {
        Some(place) => &text[..place],
        None => return false,
    };
    let table = match before.rfind("static ") {
        Some(place) if !before[place..].contains(";\n") => &before[place + 7..],
        _ => return false,
    };
    let name = table.split(':').next().unwrap_or("");
    !name.is_empty() && routine.text.contains(name)
}

/// The edit's text stands in the `enum` that the routine is a method of, and the routine answers its number.
fn is_in_enum_of(text: &str, old: &str, routine: &Routine) -> bool {
    let Some((of_type, _)) = routine.name.split_once("::") else {
        return false;
    };
    let variants = text
        .split(&format!("pub enum {of_type} {{\n"))
        .nth(1)
        .and_then(|rest| rest.split("\n}").next());
    routine.text.contains("self as u")
        && variants.is_some_and(|variants| variants.contains(old.trim()))
}

/// One line a cell of each column, as many as the longest has.
fn rows(crate_name: &str, name: &str, ensures: &[String], edits: &[String]) -> String {
    let mut text = String::new();
    for place in 0..ensures.len().max(edits.len()).max(1) {
        let cell = |cells: &[String]| cells.get(place).cloned().unwrap_or_default();
        let (first, second) = if place == 0 {
            (crate_name, name)
        } else {
            ("", "")
        };
        text.push_str(&format!(
            "| {first} | {second} | {} | {} |\n",
            cell(ensures),
            cell(edits)
        ));
    }
    text
}

/// A long statement on several rows, broken before a `×` or between words.
fn broken(said: &str) -> Vec<String> {
    let mut lines = vec![String::new()];
    for word in said.split(' ') {
        let last = lines.len() - 1;
        if !lines[last].is_empty()
            && (word == "×" || lines[last].chars().count() + word.chars().count() > WIDTH / 2)
        {
            lines.push(word.to_string());
        } else {
            if !lines[last].is_empty() {
                lines[last].push(' ');
            }
            lines[last].push_str(word);
        }
    }
    lines
}

pub fn of(source: &Source) -> String {
    let mut text = HEAD.to_string();
    for routine in &source.routines {
        let edits: Vec<String> = source
            .edits
            .iter()
            .filter(|edit| is_of(edit, routine))
            .map(|edit| format!("*{}*", edit.name))
            .collect();
        if !routine.exported && edits.is_empty() {
            continue;
        }
        let said: Vec<String> = routine
            .ensures
            .iter()
            .flat_map(|(label, said)| {
                broken(said)
                    .into_iter()
                    .map(move |line| (label.clone(), line))
            })
            .map(|(label, line)| {
                if label.is_empty() {
                    format!("`{line}`")
                } else {
                    format!("{label}: `{line}`")
                }
            })
            .collect();
        let name = if routine.exported {
            format!("`{}`", routine.name)
        } else {
            format!("(`{}`)", routine.name)
        };
        text.push_str(&rows(
            &format!("`{}`", routine.crate_name),
            &name,
            &said,
            &edits,
        ));
    }
    text
}

#[cfg(test)]
mod tests {
    use super::*;

    #[test]
    fn a_long_statement_is_broken_before_a_product() {
        assert_eq!(broken("a × b"), ["a", "× b"]);
        assert!(broken(&"word ".repeat(60))
            .iter()
            .all(|line| line.chars().count() <= WIDTH / 2 + 4));
    }

    #[test]
    fn an_enum_is_the_table_of_the_method_that_answers_its_number() {
        let routine = |name: &str, text: &str| Routine {
            crate_name: "c".to_string(),
            name: name.to_string(),
            exported: true,
            ensures: Vec::new(),
            file: "f".to_string(),
            text: text.to_string(),
        };
        let source = "pub enum Row {\n    First = 1,\n    Last = 2,\n}\n\nconst OTHER: u8 = 3,\n";
        let number = routine("Row::number", "pub fn number(self) -> u8 {\n    self as u8\n}\n");
        assert!(is_in_enum_of(source, "Last = 2,", &number));
        assert!(!is_in_enum_of(source, "u8 = 3,", &number));
        assert!(!is_in_enum_of(source, "Last = 2,", &routine("number", "self as u8")));
        assert!(!is_in_enum_of(source, "Last = 2,", &routine("Row::name", "match self {}")));
    }

    #[test]
    fn rows_are_as_many_as_the_longest_column() {
        let one = |text: &str| vec![text.to_string()];
        assert_eq!(rows("c", "r", &one("x"), &[]), "| c | r | x |  |\n");
        let two = ["e".to_string(), "f".to_string()];
        assert_eq!(
            rows("c", "r", &one("x"), &two),
            "| c | r | x | e |\n|  |  |  | f |\n"
        );
    }
}
