//! The counter/timer.

use crate::clock::Sixteenth;
use crate::level::Level;

#[derive(Clone, Copy, PartialEq)]
enum Kind {
    Counter,
    Timer,
}

#[derive(Clone, Copy, PartialEq)]
enum Source {
    RisingIp2,
    RisingIp2Over16,
    TxcaOneX,
    TxcbOneX,
    Ticks,
    TicksOver16,
}

#[derive(Clone, Copy, PartialEq)]
struct Mode {
    kind: Kind,
    source: Source,
}

impl Mode {
    /// "ACR 6-4: 0-3 counter on rising IP2, TxCA 1X, TxCB 1X, ticks/16; 4-7 timer on rising IP2, IP2/16,
    /// ticks, ticks/16."
    fn from_acr(acr: u8) -> Mode {
        let (kind, source) = match acr >> 4 & 0b111 {
            0 => (Kind::Counter, Source::RisingIp2),
            1 => (Kind::Counter, Source::TxcaOneX),
            2 => (Kind::Counter, Source::TxcbOneX),
            3 => (Kind::Counter, Source::TicksOver16),
            4 => (Kind::Timer, Source::RisingIp2),
            5 => (Kind::Timer, Source::RisingIp2Over16),
            6 => (Kind::Timer, Source::Ticks),
            _ => (Kind::Timer, Source::TicksOver16),
        };
        Mode { kind, source }
    }
}

#[derive(Clone)]
pub struct CounterTimer {
    mode: Mode,
    preload: u16,
    count: u16,
    runs: bool,
    output: Level,
    isr_bit_3: bool,
    ticks_over_16: Sixteenth,
    ip2_over_16: Sixteenth,
}

impl CounterTimer {
    /// "every other register, preload, count, phase, flag, mark, last byte read and output bit 0, counter
    /// stopped, timer output high"
    pub fn after_chip_reset() -> CounterTimer {
        CounterTimer {
            mode: Mode::from_acr(0),
            preload: 0,
            count: 0,
            runs: false,
            output: Level::High,
            isr_bit_3: false,
            ticks_over_16: Sixteenth::restarted(),
            ip2_over_16: Sixteenth::restarted(),
        }
    }

    // ------------------------------------------------------------ its clocks; a tick and a rising IP2
    // say whether the timer toggled to high

    /// "Both /16 phases always run", whatever the mode.
    pub fn tick(&mut self) -> bool {
        let sixteenth = self.ticks_over_16.step();
        self.clocked_by(Source::Ticks) || (sixteenth && self.clocked_by(Source::TicksOver16))
    }

    pub fn rising_ip2(&mut self) -> bool {
        let sixteenth = self.ip2_over_16.step();
        self.clocked_by(Source::RisingIp2)
            || (sixteenth && self.clocked_by(Source::RisingIp2Over16))
    }

    /// Only a counter mode has this source, and a counter toggles nothing.
    pub fn txca_one_x(&mut self) {
        self.clocked_by(Source::TxcaOneX);
    }

    pub fn txcb_one_x(&mut self) {
        self.clocked_by(Source::TxcbOneX);
    }

    fn clocked_by(&mut self, source: Source) -> bool {
        self.runs && self.mode.source == source && self.pulse()
    }

    /// "Each pulse takes 1 from the count, modulo 65,536; reaching 0 is terminal."
    fn pulse(&mut self) -> bool {
        self.count = self.count.wrapping_sub(1);
        self.count == 0 && self.terminal()
    }

    fn terminal(&mut self) -> bool {
        match self.mode.kind {
            // "terminal sets ISR bit 3, counting goes on"
            Kind::Counter => {
                self.isr_bit_3 = true;
                false
            }
            Kind::Timer => {
                self.count = self.preload;
                self.toggle()
            }
        }
    }

    /// "terminal toggles and reloads; a toggle to high sets ISR bit 3"
    fn toggle(&mut self) -> bool {
        let to_high = self.output == Level::Low;
        self.output = Level::of(to_high);
        if to_high {
            self.isr_bit_3 = true;
        }
        to_high
    }

    // ------------------------------------------------------------ registers

    /// Counter: "start loads the preload and runs". Timer: "start reloads and drives the output high"; order 4: "on the
    /// MC68681 a start that takes the output from low to high does set ISR bit 3". It is no pulse of code 13.
    pub fn start(&mut self) {
        self.count = self.preload;
        self.runs = true;
        if self.mode.kind == Kind::Timer {
            if self.output == Level::Low {
                self.isr_bit_3 = true;
            }
            self.output = Level::High;
        }
    }

    /// Counter: "stop halts and clears the bit." Timer: "stop clears the bit only."
    pub fn stop(&mut self) {
        self.isr_bit_3 = false;
        if self.mode.kind == Kind::Counter {
            self.runs = false;
        }
    }

    /// "A change of ACR 6-4 reloads, drives the output high, setting no bit, and runs exactly in timer
    /// modes."
    pub fn write_acr(&mut self, acr: u8) {
        let mode = Mode::from_acr(acr);
        if mode != self.mode {
            self.mode = mode;
            self.count = self.preload;
            self.output = Level::High;
            self.runs = mode.kind == Kind::Timer;
        }
    }

    /// A preload is taken at the next load.
    pub fn write_preload_high(&mut self, byte: u8) {
        let [_, low] = self.preload.to_be_bytes();
        self.preload = u16::from_be_bytes([byte, low]);
    }

    pub fn write_preload_low(&mut self, byte: u8) {
        let [high, _] = self.preload.to_be_bytes();
        self.preload = u16::from_be_bytes([high, byte]);
    }

    // ------------------------------------------------------------ what it shows

    pub fn count(&self) -> u16 {
        self.count
    }

    pub fn isr_bit_3(&self) -> bool {
        self.isr_bit_3
    }

    /// "OPCR 3-2 = 01 puts the timer output on OP3, or in counter mode the complement of ISR bit 3."
    pub fn op3(&self) -> Level {
        match self.mode.kind {
            Kind::Timer => self.output,
            Kind::Counter => Level::of(!self.isr_bit_3),
        }
    }
}
