//! The text of a capture (order 7): "Read order 6's header for 1 to 16 wires (names of 1 to 32 characters and
//! one-character codes, ! to ~, each once), then times up to 4,000,000,000 ns, no leading zeros, each with any value lines
//! of those codes". Every sentence in double quotes here is of that order or, where it is named, of order 6.

use crate::level::Level;
use crate::refusals::OUTSIDE_THE_SUBSET;

/// "for 1 to 16 wires"
pub const MOST_WIRES: usize = 16;
/// "names of 1 to 32 characters"
pub const MOST_NAME: usize = 32;
/// "times up to 4,000,000,000 ns"
pub const LAST_TIME: u64 = 4_000_000_000;

/// A wire, by its place in the header.
pub type Wire = usize;

/// A `$var` line: its code and its name.
struct Var<'a> {
    code: u8,
    name: &'a [u8],
}

/// A value line, and the time that it belongs to.
pub struct Change {
    pub time: u64,
    pub wire: Wire,
    pub level: Level,
}

/// A text that is inside the subset, but that its times may not be in order.
pub struct Text<'a> {
    vars: Vec<Var<'a>>,
    times: Vec<u64>,
    pub changes: Vec<Change>,
}

/// Where a line breaks the subset there is nothing to answer but that.
type Inside<T> = Option<T>;

impl<'a> Text<'a> {
    /// Order 6: "Lines, each ended by LF", the last one too.
    pub fn read(text: &'a [u8]) -> Result<Text<'a>, u8> {
        let lines = text.strip_suffix(b"\n").map(|lines| lines.split(|byte| *byte == b'\n'));
        lines.and_then(Text::of_lines).ok_or(OUTSIDE_THE_SUBSET)
    }

    fn of_lines(mut lines: impl Iterator<Item = &'a [u8]>) -> Inside<Text<'a>> {
        let vars = read_header(&mut lines)?;
        let mut text = Text { vars, times: Vec::new(), changes: Vec::new() };
        for line in lines {
            text.take_line(line)?;
        }
        Some(text)
    }

    /// "then times .. each with any value lines of those codes": a value line before the first time belongs to none.
    fn take_line(&mut self, line: &[u8]) -> Inside<()> {
        match *line {
            [b'#', ref digits @ ..] => self.times.push(read_time(digits)?),
            [value @ (b'0' | b'1'), code] => {
                let wire = self.vars.iter().position(|var| var.code == code)?;
                let level = Level::of(value == b'1');
                self.changes.push(Change { time: *self.times.last()?, wire, level });
            }
            _ => return None,
        }
        Some(())
    }

    /// The wire that has this name.
    pub fn wire(&self, name: &[u8]) -> Option<Wire> {
        self.vars.iter().position(|var| var.name == name)
    }

    /// "11 a time not later than the one before"
    pub fn times_are_later(&self) -> bool {
        self.times.windows(2).all(|pair| pair[0] < pair[1])
    }

    /// "up to the last time": that one too. A text with no time reaches none.
    pub fn reaches(&self, time: u64) -> bool {
        self.times.last().map_or(false, |last| time <= *last)
    }
}

/// Order 6: "`$timescale 1 ns $end`, `$scope module duart $end`, eleven as `$var wire 1 ! TxDA $end` .., `$upscope $end`,
/// `$enddefinitions $end`", the wires being 1 to 16.
fn read_header<'a>(lines: &mut impl Iterator<Item = &'a [u8]>) -> Inside<Vec<Var<'a>>> {
    is_next(lines, b"$timescale 1 ns $end")?;
    is_next(lines, b"$scope module duart $end")?;
    let mut vars: Vec<Var> = Vec::new();
    loop {
        let line = lines.next()?;
        if line == b"$upscope $end" {
            break;
        }
        let var = read_var(line)?;
        // "each once", of codes and of names
        if vars.iter().any(|other| other.code == var.code || other.name == var.name) {
            return None;
        }
        vars.push(var);
    }
    is_next(lines, b"$enddefinitions $end")?;
    (1..=MOST_WIRES).contains(&vars.len()).then_some(vars)
}

fn is_next<'a>(lines: &mut impl Iterator<Item = &'a [u8]>, wanted: &[u8]) -> Inside<()> {
    (lines.next()? == wanted).then_some(())
}

/// "(names of 1 to 32 characters and one-character codes, ! to ~, ..)"
fn read_var(line: &[u8]) -> Inside<Var<'_>> {
    let told = line.strip_prefix(b"$var wire 1 ")?.strip_suffix(b" $end")?;
    match *told {
        [code, b' ', ref name @ ..] if is_character(&code) && is_name(name) => Some(Var { code, name }),
        _ => None,
    }
}

fn is_character(byte: &u8) -> bool {
    (b'!'..=b'~').contains(byte)
}

fn is_name(name: &[u8]) -> bool {
    (1..=MOST_NAME).contains(&name.len()) && name.iter().all(is_character)
}

/// "times up to 4,000,000,000 ns, no leading zeros": a number that is too long is left before it can overflow.
fn read_time(digits: &[u8]) -> Inside<u64> {
    let leads_with_0 = digits.len() > 1 && digits[0] == b'0';
    if digits.is_empty() || leads_with_0 {
        return None;
    }
    let mut time = 0;
    for digit in digits {
        let value = char::from(*digit).to_digit(10)?;
        time = 10 * time + u64::from(value);
        if time > LAST_TIME {
            return None;
        }
    }
    Some(time)
}
