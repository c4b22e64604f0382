//! The levels of one character on the line.

use crate::format::Setting;
use crate::level::Level;

/// "Start bit 0, data lowest bit first, parity if any, stop."
#[derive(Clone, Copy)]
pub struct Frame {
    /// The levels of the bits before the stop, the start bit's lowest.
    levels: u16,
    bits_before_stop: u8,
    pulses_per_bit: u8,
    stop_pulses: u8,
}

impl Frame {
    pub fn of(byte: u8, setting: Setting) -> Frame {
        let format = setting.format;
        let data = u16::from(format.data_in_use(byte)) << 1;
        let parity = match format.parity_bit(byte) {
            Some(Level::High) => 1 << (1 + format.data_bits),
            Some(Level::Low) | None => 0,
        };
        Frame {
            levels: data | parity,
            bits_before_stop: format.bits_before_stop(),
            pulses_per_bit: setting.clock_kind.pulses_per_bit(),
            stop_pulses: format.stop_pulses(setting.clock_kind),
        }
    }

    /// In pulses; "at most 192".
    pub fn length(&self) -> u8 {
        self.bits_before_stop * self.pulses_per_bit + self.stop_pulses
    }

    /// The level from a pulse of the frame to the next, the frame's first pulse being 0.
    pub fn level(&self, pulse: u8) -> Level {
        let bit = pulse / self.pulses_per_bit;
        if bit < self.bits_before_stop {
            Level::of(self.levels >> bit & 1 == 1)
        } else {
            Level::High
        }
    }
}
