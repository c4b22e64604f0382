//! What MR1 and MR2 say of a character, and whether its clock is 16X or 1X.

use crate::level::Level;

#[derive(Clone, Copy, PartialEq)]
pub enum ClockKind {
    SixteenX,
    OneX,
}

impl ClockKind {
    pub fn pulses_per_bit(self) -> u8 {
        match self {
            ClockKind::SixteenX => 16,
            ClockKind::OneX => 1,
        }
    }
}

#[derive(Clone, Copy, PartialEq)]
pub enum Parity {
    Even,
    Odd,
    ForcedLow,
    ForcedHigh,
    None,
}

/// MR2's CTS bit is no format: it goes as it stands.
#[derive(Clone, Copy)]
pub struct Format {
    pub data_bits: u8,
    pub parity: Parity,
    pub stop_code: u8,
}

/// "Format and 16X or 1X are taken when a character starts": the two as they stand, or as they were
/// taken.
#[derive(Clone, Copy)]
pub struct Setting {
    pub format: Format,
    pub clock_kind: ClockKind,
}

impl Format {
    /// "4-3 parity 00 with, 01 forced, 10 none; 2 odd, or forced high; 1-0 data bits less 5. MR2: bit 4
    /// CTS; 3-0 stop code c."
    pub fn from_registers(mr1: u8, mr2: u8) -> Format {
        let odd_or_forced_high = mr1 >> 2 & 1 == 1;
        let parity = match (mr1 >> 3 & 0b11, odd_or_forced_high) {
            (0b00, false) => Parity::Even,
            (0b00, true) => Parity::Odd,
            (0b01, false) => Parity::ForcedLow,
            (0b01, true) => Parity::ForcedHigh,
            (0b10, _) => Parity::None,
            _ => unreachable!("MR1 bits 4-3 = 11 are refused with 5"),
        };
        Format {
            data_bits: (mr1 & 0b11) + 5,
            parity,
            stop_code: mr2 & 0b1111,
        }
    }

    /// "Unused data bits are 0."
    pub fn data_in_use(&self, byte: u8) -> u8 {
        byte & 255 >> (8 - self.data_bits)
    }

    /// The right parity bit, if any, over the data bits in use only.
    pub fn parity_bit(&self, byte: u8) -> Option<Level> {
        let odd_ones = self.data_in_use(byte).count_ones() % 2 == 1;
        match self.parity {
            Parity::Even => Some(Level::of(odd_ones)),
            Parity::Odd => Some(Level::of(!odd_ones)),
            Parity::ForcedLow => Some(Level::Low),
            Parity::ForcedHigh => Some(Level::High),
            Parity::None => None,
        }
    }

    /// "Start bit 0, data lowest bit first, parity if any, stop."
    pub fn bits_before_stop(&self) -> u8 {
        let parity_bits = if self.parity == Parity::None { 0 } else { 1 };
        1 + self.data_bits + parity_bits
    }

    /// "Stop length in sixteenths: for 5 data bits 17+c; for 6 to 8, 9+c for c up to 7, else 17+c. With a
    /// 1X clock: one bit, two if bit 3 is set." In pulses: a sixteenth at 16X, a bit at 1X.
    pub fn stop_pulses(&self, clock_kind: ClockKind) -> u8 {
        let c = self.stop_code;
        match clock_kind {
            ClockKind::SixteenX if self.data_bits == 5 => 17 + c,
            ClockKind::SixteenX if c <= 7 => 9 + c,
            ClockKind::SixteenX => 17 + c,
            ClockKind::OneX if c >> 3 & 1 == 1 => 2,
            ClockKind::OneX => 1,
        }
    }
}
