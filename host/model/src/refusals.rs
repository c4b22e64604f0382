//! The numbers of the answers, and when each is given. A model's state is always sound, so it never
//! answers 1 ("the state given is unsound") or 7 ("the new state would be unsound").

use crate::channel::{Channel, Pointer};
use crate::chip::{Chip, Event};

/// "accepted"
pub const ACCEPTED: u8 = 0;
/// "register above 15"
pub const REGISTER_ABOVE_15: u8 = 2;
/// "read of register 2 or 10"
pub const READ_OF_NONE: u8 = 3;
/// "command whose bits 3-2 or 1-0 are 11"
pub const COMMAND_WITH_11: u8 = 4;
/// "a write (or frame request) choosing a setting not modelled"; order 7: "5 (a code above 12 too)"
pub const NOT_MODELLED: u8 = 5;
/// "acknowledge while IRQ is not asserted"
pub const NOT_ASSERTED: u8 = 6;
/// "lent space shorter than the frame"; order 5: "8 for answer space shorter than the list"; order 6: "8 for short
/// space, which then stays"; order 7: "8 either log too short"
pub const SPACE_TOO_SHORT: u8 = 8;
/// Order 5: "9 for a list or budget over its limit"; order 6: "9 for a longer list"
pub const OVER_THE_LIMIT: u8 = 9;
/// Order 7: "10 text outside the subset or a named wire missing"
pub const OUTSIDE_THE_SUBSET: u8 = 10;
pub const WIRE_MISSING: u8 = 10;
/// Order 7: "11 a time not later than the one before"
pub const TIME_NOT_LATER: u8 = 11;

impl Chip {
    /// The number of an event's answer. "Checked in this order."
    pub(crate) fn number(&self, event: Event) -> u8 {
        match event {
            Event::Read(16..) | Event::Write(16.., _) => REGISTER_ABOVE_15,
            Event::Read(2 | 10) => READ_OF_NONE,
            Event::Write(2 | 10, command) if has_11(command) => COMMAND_WITH_11,
            Event::Write(register, byte) if !self.models(register, byte) => NOT_MODELLED,
            Event::Acknowledge if !self.irq_is_asserted(self.isr()) => NOT_ASSERTED,
            _ => ACCEPTED,
        }
    }

    fn models(&self, register: u8, byte: u8) -> bool {
        match register {
            0 => mode_is_modelled(&self.a, byte),
            8 => mode_is_modelled(&self.b, byte),
            13 => opcr_is_modelled(byte),
            _ => true,
        }
    }
}

fn has_11(command: u8) -> bool {
    command >> 2 & 0b11 == 0b11 || command & 0b11 == 0b11
}

fn mode_is_modelled(channel: &Channel, byte: u8) -> bool {
    match channel.pointer() {
        Pointer::Mr1 => mr1_is_modelled(byte),
        Pointer::Mr2 => mr2_is_modelled(byte),
    }
}

/// "Not modelled (5): MR1 bit 7 set or bits 4-3 = 11"
pub fn mr1_is_modelled(mr1: u8) -> bool {
    mr1 >> 7 == 0 && mr1 >> 3 & 0b11 != 0b11
}

/// "MR2 bits 7-6 not 00, or bit 5 set", of which order 2 leaves the last: "Refusals: 5 no longer covers MR2
/// bits 7-6."
pub fn mr2_is_modelled(mr2: u8) -> bool {
    mr2 >> 5 & 1 == 0
}

/// "OPCR bits 1-0 not 00, or bits 3-2 = 10 or 11."
fn opcr_is_modelled(opcr: u8) -> bool {
    opcr & 0b11 == 0b00 && matches!(opcr >> 2 & 0b11, 0b00 | 0b01)
}
