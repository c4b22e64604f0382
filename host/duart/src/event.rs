//! What goes into the chip and what is seen of it.

use crate::{Refusal, Refused, Register};

/// An event, one of document 01's six.
#[derive(Clone, Copy, Debug, PartialEq, Eq)]
pub enum Event {
    ChipReset,
    /// the register, by its number: any byte is an event. [`Event::read`] takes it by its name.
    Read(u8),
    /// the register and the byte
    Write(u8, u8),
    Acknowledge,
    /// the levels of all pins: bits 0-5 IP0-IP5, 6 RxDA, 7 RxDB
    Pins(u8),
    /// one tick of the 3.6864 MHz crystal
    Tick,
}

impl Event {
    /// `Event::read(Register::SRA)` is `Event::Read(1)`.
    #[must_use]
    pub const fn read(register: Register) -> Event {
        Event::Read(register.number())
    }

    /// `Event::write(Register::IVR, 0x41)` is `Event::Write(12, 0x41)`. It takes a byte, or [bits](crate::bits).
    #[must_use]
    pub fn write(register: Register, byte: impl Into<u8>) -> Event {
        Event::Write(register.number(), byte.into())
    }
}

/// An event as it crosses into the archive: kinds 0 to 5 in the order of [`Event`]. Every record is an event; a kind
/// above 5 is answered as a read of register 255, with 2.
#[repr(C)]
#[derive(Clone, Copy, Debug, PartialEq, Eq)]
pub struct EventRecord {
    pub kind: u8,
    pub reg: u8,
    pub byte: u8,
}

impl From<Event> for EventRecord {
    fn from(event: Event) -> EventRecord {
        let (kind, reg, byte) = match event {
            Event::ChipReset => (0, 0, 0),
            Event::Read(reg) => (1, reg, 0),
            Event::Write(reg, byte) => (2, reg, byte),
            Event::Acknowledge => (3, 0, 0),
            Event::Pins(levels) => (4, 0, levels),
            Event::Tick => (5, 0, 0),
        };
        EventRecord { kind, reg, byte }
    }
}

/// What is seen of an answer. Refused: data 0, stale, and the lines as the chip drives them (for 1, all lines 0). The
/// default, all zeros, is for space that a [poll](crate::Duart::poll) is to write.
#[repr(C)]
#[derive(Clone, Copy, Debug, Default, PartialEq, Eq)]
pub struct Seen {
    /// 0 accepted, else the number of document 01's table
    pub number: u8,
    /// the data byte, 0 where none is read
    pub data: u8,
    /// Order 1: "fresh exactly when RxRDY was set before it". True for an accepted read of the receive buffer, register
    /// 3 or 11, that took a byte, be it equal to the last or not; a stale read repeats the last byte and changes
    /// nothing. RxRDY is bit 0 of that channel's SR: MR1 bit 6 and the receiver's enable play no part. False for a
    /// refused read and for any other event.
    pub fresh: bool,
    /// IRQ, true when asserted
    pub irq: bool,
    /// the level of the pin: high in local loopback, what is echoed in the echo modes
    pub txda: bool,
    pub txdb: bool,
    /// bit n is the level of OPn
    pub op: u8,
}

impl Seen {
    /// The record, where its number is 0; else why it was refused, with the record. For the answers that a
    /// [poll](crate::Duart::poll) wrote.
    pub fn accepted(self) -> Result<Seen, Refused> {
        match Refusal::of_number(self.number) {
            None => Ok(self),
            Some(refusal) => Err(Refused { refusal, seen: self }),
        }
    }
}

/// What a frame request answers.
#[repr(C)]
#[derive(Clone, Copy, Debug, PartialEq, Eq)]
pub struct FrameAnswer {
    /// 0, 5 (a setting that is not modelled: MR1 bit 7 or bits 4-3 = 11, MR2 bit 5) or 8 (the space is too short)
    pub number: u8,
    /// the levels written, at most 192; 0 if refused
    pub length: u8,
}
