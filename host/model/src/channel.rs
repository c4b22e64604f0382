//! One channel: its registers, its clocks, its transmitter and its receiver. A and B are alike but for
//! their pins.

use crate::clock::{Clock, Moment, Source};
use crate::format::{ClockKind, Format, Setting};
use crate::level::Level;
use crate::mode::{Line, Mode};
use crate::pins::{Edge, Pin};
use crate::receiver::{ErrorMode, Receiver};
use crate::transmitter::{Standing, Transmitter};

/// Which pins a channel has.
#[derive(Clone, Copy)]
pub struct ChannelPins {
    rxd: Pin,
    cts: Pin,
    transmitter_clock: Edge,
    receiver_clock: Edge,
}

impl ChannelPins {
    // "receiver on a rising edge (A IP4, B IP2), transmitter on a falling edge (A IP3, B IP5)", "CTS (if
    // chosen; IP0 for A, IP1 for B)"
    pub const A: ChannelPins = ChannelPins {
        rxd: Pin::RxdA,
        cts: Pin::Ip0,
        transmitter_clock: Edge::Falling(Pin::Ip3),
        receiver_clock: Edge::Rising(Pin::Ip4),
    };
    pub const B: ChannelPins = ChannelPins {
        rxd: Pin::RxdB,
        cts: Pin::Ip1,
        transmitter_clock: Edge::Falling(Pin::Ip5),
        receiver_clock: Edge::Rising(Pin::Ip2),
    };
}

/// "0 MR1 then MR2 (both)": the one that the next access is at.
#[derive(Clone, Copy, PartialEq)]
pub enum Pointer {
    Mr1,
    Mr2,
}

/// Which clocks of a channel had a pulse in an event.
#[derive(Clone, Copy)]
pub struct Pulses {
    pub receiver: bool,
    pub transmitter: bool,
    pub transmitter_one_x: bool,
}

// "SR bits 7-0: break, framing, parity, overrun, TxEMT, TxRDY, FFULL, RxRDY."
const TXEMT: u8 = 0b0000_1000;
const TXRDY: u8 = 0b0000_0100;

#[derive(Clone)]
pub struct Channel {
    pins: ChannelPins,
    pointer: Pointer,
    mr1: u8,
    mr2: u8,
    csr: u8,
    receiver_clock: Clock,
    transmitter_clock: Clock,
    /// The level that is echoed; high where nothing is.
    echo: Level,
    pub transmitter: Transmitter,
    pub receiver: Receiver,
}

impl Channel {
    /// "Chip reset: IVR 15, every other register", "pointer at MR1"
    pub fn after_chip_reset(pins: ChannelPins) -> Channel {
        let source = Source::from_code(0, false);
        Channel {
            pins,
            pointer: Pointer::Mr1,
            mr1: 0,
            mr2: 0,
            csr: 0,
            receiver_clock: Clock::restarted(source, pins.receiver_clock),
            transmitter_clock: Clock::restarted(source, pins.transmitter_clock),
            echo: Level::High,
            transmitter: Transmitter::after_chip_reset(),
            receiver: Receiver::after_chip_reset(),
        }
    }

    // ------------------------------------------------------------ ticks and pins

    /// "transmitter then receiver of A; the same of B". Both clocks run in every mode.
    pub fn clocked(&mut self, moment: Moment) -> Pulses {
        let transmitter = self.transmitter_clock.pulses(moment);
        if transmitter {
            self.pulse_transmitter(moment.pins.now.level(self.pins.cts));
        }
        let receiver = self.receiver_clock.pulses(moment);
        let outside = Line {
            pulses: receiver,
            level: moment.pins.now.level(self.pins.rxd),
            clock_kind: self.receiver_clock.clock_kind(),
        };
        self.pulse_echo(outside);
        self.pulse_receiver(outside, transmitter);
        Pulses {
            receiver,
            transmitter,
            transmitter_one_x: transmitter && self.transmitter_clock.pulses_one_x(),
        }
    }

    /// Order 2, in the echo modes: "no character or break starts". A pulse does nothing there.
    fn pulse_transmitter(&mut self, cts: Level) {
        if !self.mode().echoes() {
            self.transmitter.pulse(self.standing(cts));
        }
    }

    /// Order 2: "at each pulse of an enabled receiver TxD takes the sampled level", whatever the receiver
    /// makes of it.
    fn pulse_echo(&mut self, outside: Line) {
        if outside.pulses && self.mode().echoes() && self.receiver.is_enabled() {
            self.echo = outside.level;
        }
    }

    /// In local loopback the level is the one that this same pulse has just put out: "transmitter then
    /// receiver".
    fn pulse_receiver(&mut self, outside: Line, transmitter_pulses: bool) {
        let transmitter = Line {
            pulses: transmitter_pulses,
            level: self.transmitter.txd(),
            clock_kind: self.transmitter_clock.clock_kind(),
        };
        if let Some(line) = self.mode().heard(outside, transmitter) {
            let setting = self.setting(line.clock_kind);
            self.receiver.pulse(line.level, setting);
        }
    }

    fn setting(&self, clock_kind: ClockKind) -> Setting {
        Setting {
            format: Format::from_registers(self.mr1, self.mr2),
            clock_kind,
        }
    }

    fn standing(&self, cts: Level) -> Standing {
        Standing {
            setting: self.setting(self.transmitter_clock.clock_kind()),
            // "MR2: bit 4 CTS"
            cts_chosen: self.mr2 >> 4 & 1 == 1,
            cts,
        }
    }

    // ------------------------------------------------------------ registers

    pub fn pointer(&self) -> Pointer {
        self.pointer
    }

    /// "Any access at MR1 moves the pointer to MR2, where it stays."
    pub fn read_mode(&mut self) -> u8 {
        match self.pointer {
            Pointer::Mr1 => {
                self.pointer = Pointer::Mr2;
                self.mr1
            }
            Pointer::Mr2 => self.mr2,
        }
    }

    pub fn write_mode(&mut self, byte: u8) {
        match self.pointer {
            Pointer::Mr1 => {
                self.pointer = Pointer::Mr2;
                self.mr1 = byte;
            }
            Pointer::Mr2 => self.write_mr2(byte),
        }
    }

    fn mode(&self) -> Mode {
        Mode::from_mr2(self.mr2)
    }

    /// The same two bits 7-6 again are no mode change, whatever else the byte changes.
    fn write_mr2(&mut self, mr2: u8) {
        let mode_before = self.mode();
        self.mr2 = mr2;
        if self.mode() != mode_before {
            self.change_mode();
        }
    }

    /// Order 2: "A mode change drops what is being sent (a break too; the holding place stays) or put
    /// together, leaves an enabled receiver as just enabled, and holds TxD high until the next pulse." That
    /// pulse may lower it.
    fn change_mode(&mut self) {
        self.transmitter.drop_what_is_sent();
        self.receiver.drop_what_is_put_together();
        self.echo = Level::High;
    }

    /// "A CSR write restarts that channel's phases", with the same value too.
    pub fn write_csr(&mut self, csr: u8, acr_bit_7: bool) {
        self.csr = csr;
        self.restart_clocks(acr_bit_7);
    }

    /// "CSR bits 7-4 receiver, 3-0 transmitter."
    pub fn restart_clocks(&mut self, acr_bit_7: bool) {
        let receiver = Source::from_code(self.csr >> 4, acr_bit_7);
        let transmitter = Source::from_code(self.csr & 0b1111, acr_bit_7);
        self.receiver_clock = Clock::restarted(receiver, self.pins.receiver_clock);
        self.transmitter_clock = Clock::restarted(transmitter, self.pins.transmitter_clock);
    }

    /// "Command: bit 7 ignored; bits 6-4 first, then 3-2 (01 enable, 10 disable transmitter), then 1-0
    /// (receiver)." What one side does is nothing to the other, so each takes its own bits in that order.
    pub fn command(&mut self, byte: u8) {
        let bits_6_4 = byte >> 4 & 0b111;
        // "1 pointer to MR1"
        if bits_6_4 == 1 {
            self.pointer = Pointer::Mr1;
        }
        self.transmitter.command(bits_6_4, byte >> 2 & 0b11);
        self.receiver.command(bits_6_4, byte & 0b11);
        self.command_echo(bits_6_4, byte & 0b11);
    }

    /// Order 2: "(high while disabled)", of the receiver: its reset (2) and its disable raise the echo, where
    /// the same command enables again too. "3 reset transmitter (disabled, all dropped, TxD high)" raises it
    /// as well, until the receiver's next pulse.
    fn command_echo(&mut self, bits_6_4: u8, bits_1_0: u8) {
        if matches!(bits_6_4, 2 | 3) || bits_1_0 == 0b10 {
            self.echo = Level::High;
        }
    }

    // ------------------------------------------------------------ what it shows

    /// The level of the pin.
    pub fn txd(&self) -> Level {
        self.mode().txd(self.transmitter.txd(), self.echo)
    }

    /// Order 2, in the echo modes: "TxRDY and TxEMT read 0". TxRDY is one bit wherever it shows, in SR, in
    /// ISR and on the pins.
    pub fn txrdy(&self) -> bool {
        !self.mode().echoes() && self.transmitter.txrdy()
    }

    fn txemt(&self) -> bool {
        !self.mode().echoes() && self.transmitter.txemt()
    }

    /// "SR bits 7-0: break, framing, parity, overrun, TxEMT, TxRDY, FFULL, RxRDY."
    pub fn status(&self) -> u8 {
        let error_mode = if self.mr1 >> 5 & 1 == 1 {
            ErrorMode::Block
        } else {
            ErrorMode::Character
        };
        let txemt = if self.txemt() { TXEMT } else { 0 };
        let txrdy = if self.txrdy() { TXRDY } else { 0 };
        self.receiver.status(error_mode) | txemt | txrdy
    }

    /// What ISR shows as Rx: "bit 6 FFULL instead of RxRDY for ISR"
    pub fn isr_receiver(&self) -> bool {
        if self.mr1 >> 6 & 1 == 1 {
            self.receiver.queue.is_full()
        } else {
            self.receiver.queue.is_ready()
        }
    }
}
