//! A received character with its marks, and one that is put together from samples.

use crate::format::{ClockKind, Setting};
use crate::level::Level;

// The marks, as the bits that show them: "SR bits 7-0: break, framing, parity"
pub const BREAK: u8 = 0b1000_0000;
pub const FRAMING: u8 = 0b0100_0000;
pub const PARITY: u8 = 0b0010_0000;

#[derive(Clone, Copy, Debug, PartialEq, Eq)]
pub struct Character {
    pub data: u8,
    pub marks: u8,
}

impl Character {
    /// What an unused place holds.
    pub const NONE: Character = Character { data: 0, marks: 0 };
}

/// A character being put together: what it took at its low pulse p, and its samples so far.
#[derive(Clone, Copy)]
pub struct Assembly {
    taken: Setting,
    pulses_after_p: u8,
    /// Bit i is the sample of bit i of the character, the start bit being bit 0.
    samples: u16,
    samples_taken: u8,
}

impl Assembly {
    /// "Format and 16X or 1X are taken when a character starts (receiver: at its low pulse p)"
    pub fn at_low_pulse_p(taken: Setting) -> Assembly {
        Assembly {
            taken,
            pulses_after_p: 0,
            samples: 0,
            samples_taken: 0,
        }
    }

    pub fn clock_kind(&self) -> ClockKind {
        self.taken.clock_kind
    }

    pub fn next_pulse(&mut self) {
        self.pulses_after_p += 1;
    }

    /// At 16X: "at p+8 it must still be low, else hunt again. Then one sample each 16 pulses". What the
    /// line does at p+1 to p+7 is not looked at. "At 1X each pulse is a sample": p itself too.
    pub fn samples_on_this_pulse(&self) -> bool {
        match self.taken.clock_kind {
            ClockKind::SixteenX => self.pulses_after_p % 16 == 8,
            ClockKind::OneX => true,
        }
    }

    pub fn start_is_confirmed(&self) -> bool {
        self.samples_taken > 0
    }

    pub fn take_sample(&mut self, level: Level) {
        if level == Level::High {
            self.samples |= 1 << self.samples_taken;
        }
        self.samples_taken += 1;
    }

    /// "the character arrives at the first stop sample."
    pub fn has_stop_sample(&self) -> bool {
        self.samples_taken > self.taken.format.bits_before_stop()
    }

    fn sample(&self, bit: u8) -> Level {
        Level::of(self.samples >> bit & 1 == 1)
    }

    /// "All bits, parity and stop low": an odd or forced high parity bit that is low, too.
    pub fn is_break(&self) -> bool {
        self.samples == 0
    }

    pub fn stop_is_low(&self) -> bool {
        self.sample(self.taken.format.bits_before_stop()) == Level::Low
    }

    /// "data lowest bit first", after the start bit.
    fn data(&self) -> u8 {
        let [low, _] = (self.samples >> 1).to_le_bytes();
        self.taken.format.data_in_use(low)
    }

    /// "A wrong parity bit, forced ones too: parity mark."
    fn parity_is_wrong(&self) -> bool {
        match self.taken.format.parity_bit(self.data()) {
            Some(right) => self.sample(1 + self.taken.format.data_bits) != right,
            None => false,
        }
    }

    /// The character that arrives.
    pub fn character(&self) -> Character {
        // "All bits, parity and stop low: a zero with the break mark alone"
        if self.is_break() {
            return Character {
                data: 0,
                marks: BREAK,
            };
        }
        let parity = if self.parity_is_wrong() { PARITY } else { 0 };
        // "Low stop: framing mark"
        let framing = if self.stop_is_low() { FRAMING } else { 0 };
        Character {
            data: self.data(),
            marks: parity | framing,
        }
    }
}
