//! One transmitter: the holding place, the shifter and breaks.

use crate::format::{ClockKind, Setting};
use crate::frame::Frame;
use crate::level::Level;

/// What the transmitter does with the line.
#[derive(Clone, Copy)]
enum Sends {
    /// Idle: TxD is high, a start or a break may come on the next pulse.
    Nothing,
    /// The shifter: a frame and the pulse of it that came last. The last pulse's level lasts until the
    /// pulse after it, and so long the shifter is not empty.
    Frame {
        frame: Frame,
        pulse: u8,
    },
    Break,
    /// The high bit owed after a break, and how many of its pulses have gone.
    HighBit {
        pulses_gone: u8,
    },
}

/// What a pulse finds in the registers and on the CTS pin.
#[derive(Clone, Copy)]
pub struct Standing {
    pub setting: Setting,
    pub cts_chosen: bool,
    pub cts: Level,
}

#[derive(Clone)]
pub struct Transmitter {
    enabled: bool,
    holding_place: Option<u8>,
    sends: Sends,
    /// A start break that has not begun yet.
    break_asked: bool,
    txd: Level,
}

impl Transmitter {
    /// "both sides disabled, queues, waiting and holding places, shifters and assembly empty, TxD high"
    pub fn after_chip_reset() -> Transmitter {
        Transmitter {
            enabled: false,
            holding_place: None,
            sends: Sends::Nothing,
            break_asked: false,
            txd: Level::High,
        }
    }

    // ------------------------------------------------------------ a pulse of the transmitter's clock

    /// One pulse. The clock runs, and a frame or a high bit goes on, with the transmitter disabled too.
    pub fn pulse(&mut self, standing: Standing) {
        match self.sends {
            Sends::Nothing => self.pulse_when_idle(standing),
            Sends::Frame { frame, pulse } if pulse + 1 < frame.length() => {
                self.send_pulse(frame, pulse + 1);
            }
            // "at the earliest on the pulse after a frame's last": this is that pulse.
            Sends::Frame { .. } => {
                self.send_nothing();
                self.pulse_when_idle(standing);
            }
            // "stop, disable or reset ends it, nothing else"
            Sends::Break => {}
            Sends::HighBit { pulses_gone } => {
                self.pulse_in_high_bit(pulses_gone + 1, standing.setting.clock_kind);
            }
        }
    }

    /// "A break begins on a pulse, when idle and no character can start"
    fn pulse_when_idle(&mut self, standing: Standing) {
        match self.holding_place {
            Some(byte) if self.character_can_start(standing) => {
                // "Format and 16X or 1X are taken when a character starts"
                self.holding_place = None;
                self.send_pulse(Frame::of(byte, standing.setting), 0);
            }
            _ if self.break_asked => {
                self.break_asked = false;
                self.sends = Sends::Break;
                self.txd = Level::Low;
            }
            _ => {}
        }
    }

    /// "A character starts on a pulse if enabled, idle, the holding place is full and CTS (if chosen; IP0
    /// for A, IP1 for B) is low"
    fn character_can_start(&self, standing: Standing) -> bool {
        self.enabled && (!standing.cts_chosen || standing.cts == Level::Low)
    }

    /// "TxD is high at once, and for one bit (16 pulses, or 1) before a start or a new break." "a break's
    /// end go by CSR as it stands": 16 pulses, or this one. The pulse that completes the bit is of the bit,
    /// so a start comes on the next at the earliest.
    fn pulse_in_high_bit(&mut self, pulses_gone: u8, standing: ClockKind) {
        if standing == ClockKind::OneX || pulses_gone == 16 {
            self.send_nothing();
        } else {
            self.sends = Sends::HighBit { pulses_gone };
        }
    }

    fn send_pulse(&mut self, frame: Frame, pulse: u8) {
        self.sends = Sends::Frame { frame, pulse };
        self.txd = frame.level(pulse);
    }

    fn send_nothing(&mut self) {
        self.sends = Sends::Nothing;
        self.txd = Level::High;
    }

    // ------------------------------------------------------------ writes and commands

    /// "A write while disabled is ignored; a second write replaces the first."
    pub fn write(&mut self, byte: u8) {
        if self.enabled {
            self.holding_place = Some(byte);
        }
    }

    /// "bits 6-4 first, then 3-2 (01 enable, 10 disable transmitter)"
    pub fn command(&mut self, bits_6_4: u8, bits_3_2: u8) {
        match bits_6_4 {
            3 => self.reset(),
            6 => self.start_break(),
            7 => self.end_break(),
            // The others are the pointer's and the receiver's.
            _ => {}
        }
        match bits_3_2 {
            0b01 => self.enabled = true,
            0b10 => self.disable(),
            _ => {}
        }
    }

    /// "3 reset transmitter (disabled, all dropped, TxD high)". A reset that ends a break owes the high bit
    /// like stop and disable, and one in the high bit leaves it owed.
    fn reset(&mut self) {
        self.disable();
        self.holding_place = None;
        if let Sends::Frame { .. } = self.sends {
            self.send_nothing();
        }
    }

    /// "Disable lets the shifter finish and keeps the holding place."
    fn disable(&mut self) {
        self.enabled = false;
        self.end_break();
    }

    /// "start break while disabled is ignored". While one is sent, a break is one thing: nothing is asked.
    fn start_break(&mut self) {
        if self.enabled && !matches!(self.sends, Sends::Break) {
            self.break_asked = true;
        }
    }

    /// "stop, disable or reset ends it, nothing else; one not yet begun is just dropped, else TxD is high at
    /// once, and for one bit (16 pulses, or 1) before a start or a new break."
    fn end_break(&mut self) {
        self.break_asked = false;
        if let Sends::Break = self.sends {
            self.sends = Sends::HighBit { pulses_gone: 0 };
            self.txd = Level::High;
        }
    }

    /// Order 2: "A mode change drops what is being sent (a break too; the holding place stays)". The high bit
    /// after a break is dropped too, nothing is owed, and a break that is only asked stays asked.
    pub fn drop_what_is_sent(&mut self) {
        self.send_nothing();
    }

    // ------------------------------------------------------------ what it shows

    /// The transmitter's own level; what the pin shows goes by the mode.
    pub fn txd(&self) -> Level {
        self.txd
    }

    /// "TxRDY: enabled and holding place empty."
    pub fn txrdy(&self) -> bool {
        self.enabled && self.holding_place.is_none()
    }

    /// "TxEMT: enabled, holding place and shifter empty." A break is no character: the shifter is empty.
    pub fn txemt(&self) -> bool {
        let shifter_empty = !matches!(self.sends, Sends::Frame { .. });
        self.enabled && self.holding_place.is_none() && shifter_empty
    }
}
