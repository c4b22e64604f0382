//! The clock of one side of a channel.

use crate::format::ClockKind;
use crate::pins::{Edge, Move};

// "Ticks per 16X pulse, codes 0 to 12"
/// "ACR bit 7 = 0"
const TICKS_WITH_ACR_BIT_7_CLEAR: [u16; 13] = [
    4608, 2096, 1712, 1152, 768, 384, 192, 220, 96, 48, 32, 24, 6,
];
/// "ACR bit 7 = 1"
const TICKS_WITH_ACR_BIT_7_SET: [u16; 13] = [
    3072, 2096, 1712, 1536, 768, 384, 192, 115, 96, 48, 128, 24, 12,
];

/// What a code of CSR chooses.
#[derive(Clone, Copy)]
pub enum Source {
    /// One 16X pulse each so many ticks.
    Ticks(u16),
    TimerToggleToHigh,
    PinSixteenX,
    PinOneX,
}

impl Source {
    pub fn from_code(code: u8, acr_bit_7: bool) -> Source {
        match code {
            13 => Source::TimerToggleToHigh,
            14 => Source::PinSixteenX,
            15 => Source::PinOneX,
            _ if acr_bit_7 => Source::Ticks(TICKS_WITH_ACR_BIT_7_SET[usize::from(code)]),
            _ => Source::Ticks(TICKS_WITH_ACR_BIT_7_CLEAR[usize::from(code)]),
        }
    }
}

/// What a tick or pin event brings to the clocks.
#[derive(Clone, Copy)]
pub struct Moment {
    pub tick: bool,
    pub timer_toggled_to_high: bool,
    pub pins: Move,
}

/// A division by 16.
#[derive(Clone, Copy)]
pub struct Sixteenth {
    gone: u8,
}

impl Sixteenth {
    pub fn restarted() -> Sixteenth {
        Sixteenth { gone: 0 }
    }

    /// Whether this is the 16th step since the restart, the 32nd, and so on.
    pub fn step(&mut self) -> bool {
        self.gone = (self.gone + 1) % 16;
        self.gone == 0
    }
}

/// The clock of one side. It runs whether its side is enabled or not.
#[derive(Clone)]
pub struct Clock {
    source: Source,
    /// What pulses it where its source is a pin.
    edge: Edge,
    ticks_gone: u16,
    pulses_over_16: Sixteenth,
}

impl Clock {
    /// "restarts that channel's phases, the next pulse coming a full period later"
    pub fn restarted(source: Source, edge: Edge) -> Clock {
        Clock {
            source,
            edge,
            ticks_gone: 0,
            pulses_over_16: Sixteenth::restarted(),
        }
    }

    /// "14 (16X), 15 (1X)"; all the others are 16X pulses.
    pub fn clock_kind(&self) -> ClockKind {
        match self.source {
            Source::PinOneX => ClockKind::OneX,
            _ => ClockKind::SixteenX,
        }
    }

    /// Whether an event gives the side a pulse.
    pub fn pulses(&mut self, moment: Moment) -> bool {
        match self.source {
            Source::Ticks(period) => moment.tick && self.tick(period),
            Source::TimerToggleToHigh => moment.timer_toggled_to_high,
            Source::PinSixteenX | Source::PinOneX => moment.pins.has(self.edge),
        }
    }

    /// Whether this tick is a period's last.
    fn tick(&mut self, period: u16) -> bool {
        self.ticks_gone += 1;
        let period_over = self.ticks_gone == period;
        if period_over {
            self.ticks_gone = 0;
        }
        period_over
    }

    /// Whether a pulse of this clock is one of its 1X clock: "every 16th 16X pulse since that phase
    /// restarted, or each 1X pulse".
    pub fn pulses_one_x(&mut self) -> bool {
        match self.clock_kind() {
            ClockKind::SixteenX => self.pulses_over_16.step(),
            ClockKind::OneX => true,
        }
    }
}
