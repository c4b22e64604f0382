//! `picture < DUMP > SVG`: what a value change dump (order 6) shows, for a page. docs/dump.svg is what this makes of the dump
//! of host/picture/script.

mod svg;
mod wave;

use std::io::{self, Read, Write};
use std::process::ExitCode;

fn picture() -> Result<(), String> {
    let mut text = String::new();
    io::stdin().read_to_string(&mut text).map_err(|why| why.to_string())?;
    let svg = svg::of(&wave::read(&text)?);
    io::stdout().write_all(svg.as_bytes()).map_err(|why| why.to_string())
}

fn main() -> ExitCode {
    match picture() {
        Ok(()) => ExitCode::SUCCESS,
        Err(why) => {
            eprintln!("picture: {why}");
            ExitCode::FAILURE
        }
    }
}
