//! The four modes of a channel, MR2 bits 7-6. Every sentence in double quotes here is of order 2.

use crate::format::ClockKind;
use crate::level::Level;

#[derive(Clone, Copy, Debug, PartialEq, Eq)]
pub enum Mode {
    Normal,
    AutomaticEcho,
    LocalLoopback,
    RemoteLoopback,
}

/// A line that a receiver could listen to: whether it has a pulse in this event, the level, and how many
/// pulses make a bit.
#[derive(Clone, Copy)]
pub struct Line {
    pub pulses: bool,
    pub level: Level,
    pub clock_kind: ClockKind,
}

impl Mode {
    pub fn from_mr2(mr2: u8) -> Mode {
        match mr2 >> 6 {
            0b00 => Mode::Normal,
            0b01 => Mode::AutomaticEcho,
            0b10 => Mode::LocalLoopback,
            _ => Mode::RemoteLoopback,
        }
    }

    /// "Remote loopback: the same echo": all that is said of automatic echo but the receiver's work.
    pub fn echoes(self) -> bool {
        matches!(self, Mode::AutomaticEcho | Mode::RemoteLoopback)
    }

    /// What a receiver hears in an event, and here alone. "Local loopback: the receiver takes the
    /// transmitter's level and its clock", "RxD is ignored": pulse, source, phase and 16X or 1X are all the
    /// transmitter's. Automatic echo: "the receiver works as usual". Remote loopback: "no character is put
    /// together", so it hears nothing.
    pub fn heard(self, outside: Line, transmitter: Line) -> Option<Line> {
        let line = match self {
            Mode::Normal | Mode::AutomaticEcho => outside,
            Mode::LocalLoopback => transmitter,
            Mode::RemoteLoopback => return None,
        };
        Some(line).filter(|line| line.pulses)
    }

    /// What the pin TxD shows, and here alone. Local loopback: "TxD stays high". The echo's level is high
    /// wherever nothing is echoed.
    pub fn txd(self, transmitter: Level, echo: Level) -> Level {
        match self {
            Mode::Normal => transmitter,
            Mode::LocalLoopback => Level::High,
            Mode::AutomaticEcho | Mode::RemoteLoopback => echo,
        }
    }
}
