//! Order 7: "Read a capture from the mill. Customers send value change dumps of the real chip's two RxD lines." Every
//! sentence in double quotes here is of that order. capture_text.rs reads the text, this file what its lines say.
//!
//! It goes pulse by pulse and not tick by tick: the codes that are allowed all give a pulse each so many ticks, and a
//! receiver looks at its line at its pulses alone.

use crate::capture_text::{Text, Wire};
use crate::character::Character;
use crate::clock::Source;
use crate::dump::time_of;
use crate::format::{ClockKind, Format, Setting};
use crate::level::Level;
use crate::receiver::Receiver;
use crate::refusals::{mr1_is_modelled, ACCEPTED, NOT_MODELLED, SPACE_TOO_SHORT, TIME_NOT_LATER, WIRE_MISSING};

/// "for a given MR1, ACR bit 7 and CSR code 0 to 12"
pub const MOST_CODE: u8 = 12;

/// "two bytes a character (data, marks as SR 7-5)"
pub const BYTES_A_CHARACTER: usize = 2;

/// All that a capture is read by but the logs: the text is the customer's, "the caller names the two wires", A's first.
#[derive(Clone, Copy)]
pub struct Request<'a> {
    pub mr1: u8,
    pub acr_bit_7: bool,
    pub code: u8,
    pub text: &'a [u8],
    pub names: [&'a [u8]; 2],
}

/// What is answered: the number, and how long "the filled part" of the named channel's log is, 0 if refused.
#[derive(Clone, Copy, Debug, PartialEq, Eq)]
pub struct Captured {
    pub number: u8,
    pub length: usize,
}

impl Captured {
    /// "the part is then empty and both logs stay."
    fn refused(number: u8) -> Captured {
        Captured { number, length: 0 }
    }
}

/// "There are two lent logs, one per channel .. the caller names a channel and is handed the filled part of that
/// channel's log."
pub fn capture(asked: Request, log_a: &mut [u8], log_b: &mut [u8], channel_b: bool) -> Captured {
    let [a, b] = match asked.characters() {
        Ok(characters) => characters,
        Err(number) => return Captured::refused(number),
    };
    // "8 either log too short"
    if !has_room(log_a, &a) || !has_room(log_b, &b) {
        return Captured::refused(SPACE_TOO_SHORT);
    }
    fill(log_a, &a);
    fill(log_b, &b);
    let named = if channel_b { b } else { a };
    Captured { number: ACCEPTED, length: BYTES_A_CHARACTER * named.len() }
}

fn has_room(log: &[u8], characters: &[Character]) -> bool {
    log.len() >= BYTES_A_CHARACTER * characters.len()
}

fn fill(log: &mut [u8], characters: &[Character]) {
    for (place, character) in log.chunks_exact_mut(BYTES_A_CHARACTER).zip(characters) {
        place.copy_from_slice(&[character.data, character.marks]);
    }
}

impl Request<'_> {
    /// The characters of the two lines, A's first. "Refusals, in this order: 5 (a code above 12 too), 10 text outside the
    /// subset or a named wire missing, 11 a time not later than the one before".
    pub fn characters(&self) -> Result<[Vec<Character>; 2], u8> {
        if !mr1_is_modelled(self.mr1) || self.code > MOST_CODE {
            return Err(NOT_MODELLED);
        }
        let text = Text::read(self.text)?;
        let wire = |name| text.wire(name).ok_or(WIRE_MISSING);
        let wires = [wire(self.names[0])?, wire(self.names[1])?];
        if !text.times_are_later() {
            return Err(TIME_NOT_LATER);
        }
        Ok(wires.map(|wire| self.received(&text, wire)))
    }

    /// "Turn each line, up to the last time, into characters by document 01's receiver, just enabled, phase 0": the first
    /// pulse comes a full period after time 0. "Tick n samples the level at order 6's time."
    fn received(&self, text: &Text, wire: Wire) -> Vec<Character> {
        let mut receiver = Receiver::after_chip_reset();
        receiver.just_enable();
        let setting = self.setting();
        let mut line = Line::before_time_0(text, wire);
        let mut arrived = Vec::new();
        for time in self.times_of_pulses().take_while(|time| text.reaches(*time)) {
            receiver.pulse(line.level_at(time), setting);
            arrived.extend(receiver.take_character());
        }
        arrived
    }

    /// The receiver never looks at MR2. Codes 0 to 12 are all 16X.
    fn setting(&self) -> Setting {
        Setting {
            format: Format::from_registers(self.mr1, 0),
            clock_kind: ClockKind::SixteenX,
        }
    }

    fn times_of_pulses(&self) -> impl Iterator<Item = u64> {
        let period = match Source::from_code(self.code, self.acr_bit_7) {
            Source::Ticks(period) => u64::from(period),
            _ => unreachable!("a code above 12 is refused with 5"),
        };
        (1..).map(move |pulse| time_of(pulse * period))
    }
}

/// A wire's level as time goes on.
pub(crate) struct Line<'a, 'b> {
    text: &'b Text<'a>,
    wire: Wire,
    /// The place of the first change that is still to come.
    next: usize,
    level: Level,
}

impl<'a, 'b> Line<'a, 'b> {
    /// "high before their first value"
    pub(crate) fn before_time_0(text: &'b Text<'a>, wire: Wire) -> Line<'a, 'b> {
        Line { text, wire, next: 0, level: Level::High }
    }

    /// The level at a time, the values of that very time counted, "the last of a code counting". Times come in order.
    pub(crate) fn level_at(&mut self, time: u64) -> Level {
        while let Some(change) = self.text.changes.get(self.next).filter(|change| change.time <= time) {
            if change.wire == self.wire {
                self.level = change.level;
            }
            self.next += 1;
        }
        self.level
    }
}
