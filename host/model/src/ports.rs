//! The input port and the output port.

use crate::level::Level;
use crate::pins::{Move, Pins};

/// The levels of the pins, with the change flags of IP3-IP0.
#[derive(Clone)]
pub struct InputPort {
    levels: Pins,
    change_flags: u8,
}

impl InputPort {
    /// "Pin levels stay."
    pub fn after_chip_reset(levels: Pins) -> InputPort {
        InputPort {
            levels,
            change_flags: 0,
        }
    }

    pub fn levels(&self) -> Pins {
        self.levels
    }

    /// "levels and flags": a flag is set for each of IP3-IP0 whose level differs from that before.
    pub fn set_levels(&mut self, levels: Pins) -> Move {
        let before = self.levels;
        self.levels = levels;
        self.change_flags |= (before.0 ^ levels.0) & 0b1111;
        Move {
            before,
            now: levels,
        }
    }

    /// "IPCR: change flags IP3-IP0, then levels; a read clears the flags."
    pub fn read_ipcr(&mut self) -> u8 {
        let ipcr = self.change_flags << 4 | self.levels.0 & 0b1111;
        self.change_flags = 0;
        ipcr
    }

    /// "Input port bits 7, 6 read 1."
    pub fn read(&self) -> u8 {
        0b1100_0000 | self.levels.0 & 0b0011_1111
    }

    /// "ISR bit 7: some flag is set whose ACR bit (3-0) is set."
    pub fn isr_input_change(&self, acr: u8) -> bool {
        self.change_flags & acr & 0b1111 != 0
    }
}

/// The output bits, and OPCR, which says what the pins show instead.
#[derive(Clone)]
pub struct OutputPort {
    bits: u8,
    opcr: u8,
}

impl OutputPort {
    /// "every other register, preload, count, phase, flag, mark, last byte read and output bit 0"
    pub fn after_chip_reset() -> OutputPort {
        OutputPort { bits: 0, opcr: 0 }
    }

    pub fn write_opcr(&mut self, opcr: u8) {
        self.opcr = opcr;
    }

    pub fn set_bits(&mut self, bits: u8) {
        self.bits |= bits;
    }

    pub fn reset_bits(&mut self, bits: u8) {
        self.bits &= !bits;
    }

    /// "OP pins are the complement of the output bits. OPCR bits 7, 6, 5, 4 turn OP7, 6, 5, 4 into the
    /// complement of ISR bits 4, 0, 5, 1. OPCR 3-2 = 01 puts the timer output on OP3, or in counter mode the
    /// complement of ISR bit 3."
    pub fn pins(&self, isr: u8, op3: Level) -> u8 {
        let mut low = self.bits;
        for (pin, isr_bit) in [(7, 4), (6, 0), (5, 5), (4, 1)] {
            if self.opcr >> pin & 1 == 1 {
                low = with_bit(low, pin, isr >> isr_bit & 1 == 1);
            }
        }
        if self.opcr >> 2 & 0b11 == 0b01 {
            low = with_bit(low, 3, op3 == Level::Low);
        }
        !low
    }
}

fn with_bit(byte: u8, bit: u8, one: bool) -> u8 {
    byte & !(1 << bit) | u8::from(one) << bit
}
