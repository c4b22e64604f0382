//! What the program `dump` writes, by the model: order 6's text of a script in `replay`'s format, which stands on
//! standard input, from a fresh device. A line that cannot be read is told of on standard error and skipped.

use model::dump::{Dumped, MOST_DUMPED};
use model::{Chip, Event};
use std::io::{self, Read, Write};

/// The program's limit on the text; the list's is order 6's.
const MOST_TEXT: usize = 2_097_152;
/// `replay`'s largest count.
const MOST_COUNT: u64 = 4_000_000_000;

/// Digits alone, and no sign.
fn number(word: &str) -> Option<u64> {
    word.bytes().all(|digit| digit.is_ascii_digit()).then(|| word.parse().ok())?
}

fn byte(word: &str) -> Option<u8> {
    number(word)?.try_into().ok()
}

/// A line of a script, as the README has them: `reset`, `read N`, `write N B`, `ack`, `pins B`, `tick` or `tick COUNT`,
/// in decimal. The event, and how many times it comes.
fn read_line(line: &str) -> Option<(Event, u64)> {
    let words: Vec<&str> = line.split_whitespace().collect();
    let event = match words[..] {
        ["reset"] => Event::ChipReset,
        ["read", register] => Event::Read(byte(register)?),
        ["write", register, data] => Event::Write(byte(register)?, byte(data)?),
        ["ack"] => Event::Acknowledge,
        ["pins", levels] => Event::Pins(byte(levels)?),
        ["tick"] => Event::Tick,
        ["tick", count] => return Some((Event::Tick, number(count).filter(|count| *count <= MOST_COUNT)?)),
        _ => return None,
    };
    Some((event, 1))
}

/// The events, no more than one over the limit.
fn read_script(script: &str) -> Vec<Event> {
    let mut events = Vec::new();
    let lines = script.lines().map(str::trim).enumerate();
    for (place, line) in lines.filter(|(_, line)| !line.is_empty() && !line.starts_with('#')) {
        match read_line(line) {
            Some((event, count)) => {
                let room = MOST_DUMPED + 1 - events.len();
                let count = usize::try_from(count).unwrap_or(room).min(room);
                events.extend(std::iter::repeat(event).take(count));
            }
            None => eprintln!("error line {}", place + 1),
        }
    }
    events
}

fn main() -> io::Result<()> {
    let mut script = String::new();
    io::stdin().read_to_string(&mut script)?;
    let mut space = vec![0; MOST_TEXT];
    let Dumped { number, length } = Chip::fresh().dump(&read_script(&script), &mut space);
    if number != 0 {
        eprintln!("refused {number}");
    }
    io::stdout().write_all(&space[..length])
}
