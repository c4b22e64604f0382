//! The pins that a pin event sets.

use crate::level::Level;

/// A pin, by its bit: "pins (byte: bits 0-5 IP0-IP5, 6 RxDA, 7 RxDB)"
#[derive(Clone, Copy)]
pub enum Pin {
    Ip0,
    Ip1,
    Ip2,
    Ip3,
    Ip4,
    Ip5,
    RxdA,
    RxdB,
}

/// The levels of all pins, one bit each.
#[derive(Clone, Copy)]
pub struct Pins(pub u8);

impl Pins {
    pub const ALL_HIGH: Pins = Pins(255);

    pub fn level(self, pin: Pin) -> Level {
        Level::of(self.0 >> pin as u8 & 1 == 1)
    }
}

/// An edge on a pin.
#[derive(Clone, Copy)]
pub enum Edge {
    Rising(Pin),
    Falling(Pin),
}

/// The levels before and after one event; a tick moves none.
#[derive(Clone, Copy)]
pub struct Move {
    pub before: Pins,
    pub now: Pins,
}

impl Move {
    pub fn none(levels: Pins) -> Move {
        Move {
            before: levels,
            now: levels,
        }
    }

    pub fn has(self, edge: Edge) -> bool {
        match edge {
            Edge::Rising(pin) => {
                self.before.level(pin) == Level::Low && self.now.level(pin) == Level::High
            }
            Edge::Falling(pin) => {
                self.before.level(pin) == Level::High && self.now.level(pin) == Level::Low
            }
        }
    }
}
