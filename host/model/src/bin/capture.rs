//! What the program `capture MR1 ACR7 CODE NAMEA NAMEB` prints, by the model: the characters of a capture (order 7) that
//! stands on standard input, a line `A DATA MARKS` for each of channel A's, then those of channel B.

use model::capture::Request;
use std::env;
use std::ffi::OsString;
use std::io::{self, Read, Write};
use std::os::unix::ffi::OsStringExt;

/// The program's limit on the text.
const MOST_TEXT: usize = 4_194_304;

/// Digits alone, and no sign.
fn number(word: &[u8]) -> Option<u8> {
    let digits = std::str::from_utf8(word).ok()?;
    digits.bytes().all(|digit| digit.is_ascii_digit()).then(|| digits.parse().ok())?
}

/// Decimal numbers up to 255, ACR7 0 or 1.
fn read_arguments(words: &[Vec<u8>]) -> Option<Request<'_>> {
    match words {
        [mr1, acr7, code, name_a, name_b] => Some(Request {
            mr1: number(mr1)?,
            acr_bit_7: number(acr7).filter(|bit| *bit <= 1)? == 1,
            code: number(code)?,
            text: &[],
            names: [name_a, name_b],
        }),
        _ => None,
    }
}

fn lines(asked: Request) -> String {
    match asked.characters() {
        Ok([a, b]) => {
            let named = a.iter().map(|one| ('A', one)).chain(b.iter().map(|one| ('B', one)));
            named.map(|(channel, one)| format!("{channel} {} {}\n", one.data, one.marks)).collect()
        }
        Err(number) => format!("refused {number}\n"),
    }
}

fn main() -> io::Result<()> {
    let words: Vec<Vec<u8>> = env::args_os().skip(1).map(OsString::into_vec).collect();
    let mut text = Vec::new();
    let said = match read_arguments(&words) {
        None => "usage\n".to_string(),
        Some(asked) => {
            io::stdin().take(MOST_TEXT as u64 + 1).read_to_end(&mut text)?;
            if text.len() > MOST_TEXT {
                "too long\n".to_string()
            } else {
                lines(Request { text: &text, ..asked })
            }
        }
    };
    io::stdout().write_all(said.as_bytes())
}
