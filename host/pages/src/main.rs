//! Holds the pages to the source. In the repository's root `pages` prints each fault and exits with 1 where there is
//! one; `pages routines` prints docs/promises/routines.md, the table of the public routines, as the source has it.

mod edits;
mod faults;
mod page;
mod routines;
mod source;
mod table;

use source::Source;
use std::process::ExitCode;

/// The page that is made of the source, and not written.
const ROUTINES: &str = "docs/promises/routines.md";

fn check(source: &Source) -> std::io::Result<ExitCode> {
    let pages = page::read_all()?;
    let mut found = faults::of(source, &pages);
    let made = table::of(source);
    if !pages
        .iter()
        .any(|page| page.path == ROUTINES && page.text == made)
    {
        found.push(format!("{ROUTINES} is not what `pages routines` prints"));
    }
    if found.is_empty() {
        println!("{}", faults::count(source, &pages));
        return Ok(ExitCode::SUCCESS);
    }
    for fault in found {
        eprintln!("pages: {fault}");
    }
    Ok(ExitCode::FAILURE)
}

fn main() -> std::io::Result<ExitCode> {
    let source = Source::read()?;
    let words: Vec<String> = std::env::args().skip(1).collect();
    match words.iter().map(String::as_str).collect::<Vec<_>>()[..] {
        [] => check(&source),
        ["routines"] => {
            print!("{}", table::of(&source));
            Ok(ExitCode::SUCCESS)
        }
        _ => {
            eprintln!("pages: `pages` or `pages routines`");
            Ok(ExitCode::from(2))
        }
    }
}
