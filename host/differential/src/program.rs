//! What the program on the board may do to the chip: formats, rates, commands, the ports, interrupts, and
//! accesses that are refused.

use crate::script::{Channel, Script, Stepped};
use duart::{mode, Event, EventRecord};

impl Script<'_> {
    pub fn any_channel(&mut self) -> Channel {
        self.draws.pick(&Channel::BOTH)
    }

    // ------------------------------------------------------------ formats and rates

    /// Both channels, often alike, so that one can receive what the other sends.
    pub fn program_all(&mut self) -> Stepped {
        let (mr1, csr) = (self.some_mr1(), self.some_csr());
        let alike = self.draws.flip();
        for channel in Channel::BOTH {
            self.write_modes(channel, if alike { Some(mr1) } else { None })?;
            let csr = if alike { csr } else { self.some_csr() };
            self.write(channel.register(1), csr)?;
            self.command(channel, 0x05)?;
        }
        self.time_code_13()?;
        self.interrupts()?;
        self.ports()
    }

    /// MR1 and MR2; a refused MR1 leaves the pointer, so the byte that follows is an MR1 too.
    pub fn write_modes(&mut self, channel: Channel, mr1: Option<u8>) -> Stepped {
        self.command(channel, 0x10)?;
        let mr1 = mr1.unwrap_or_else(|| self.some_mr1());
        self.write(channel.register(0), mr1)?;
        let mr2 = self.some_mr2();
        self.write(channel.register(0), mr2)
    }

    /// All widths, parities and modes; seldom a byte that may not be modelled.
    fn some_mr1(&mut self) -> u8 {
        if self.draws.one_in(12) {
            return self.draws.byte();
        }
        let parity = self.draws.pick(&[0x00, 0x08, 0x10]);
        let bits_6_5 = self.draws.pick(&[0x00, 0x00, 0x20, 0x40, 0x60]);
        bits_6_5 | parity | self.draws.small(8)
    }

    /// All stop codes, now and then with CTS, mostly in normal mode; seldom a byte that may not be modelled.
    fn some_mr2(&mut self) -> u8 {
        if self.draws.one_in(12) {
            return self.draws.byte();
        }
        let mode = if self.draws.one_in(6) {
            self.draws.small(4) << 6
        } else {
            mode::NORMAL
        };
        mode | self.draws.pick(&[0x00, 0x00, 0x00, 0x10]) | self.draws.small(16)
    }

    /// Often one code for both sides.
    fn some_csr(&mut self) -> u8 {
        let receiver = self.some_code();
        let transmitter = if self.draws.one_in(4) {
            self.some_code()
        } else {
            receiver
        };
        (receiver << 4) | transmitter
    }

    /// The codes that bring pulses in few events, and seldom any.
    fn some_code(&mut self) -> u8 {
        if self.draws.one_in(24) {
            self.draws.small(16)
        } else {
            self.draws
                .pick(&[12, 13, 13, 13, 14, 14, 14, 14, 15, 15, 15])
        }
    }

    /// Other rates, or where both sides go by pins, perhaps a change between 16X and 1X alone.
    fn write_csr(&mut self) -> Stepped {
        let channel = self.any_channel();
        if self.goes_by_pins(channel) && !self.draws.one_in(4) {
            return self.change_pulses_per_bit(channel);
        }
        let csr = self.some_csr();
        self.write(channel.register(1), csr)
    }

    pub fn goes_by_pins(&self, channel: Channel) -> bool {
        self.side(channel).csr & 0xee == 0xee
    }

    /// From code 14 to 15 or back: the pulses come as before, and mean something else.
    pub fn change_pulses_per_bit(&mut self, channel: Channel) -> Stepped {
        let csr = self.side(channel).csr ^ self.draws.pick(&[0x11, 0x10, 0x01]);
        self.write(channel.register(1), csr)
    }

    /// Where a side goes by the timer, the timer usually runs fast.
    fn time_code_13(&mut self) -> Stepped {
        let csrs = Channel::BOTH.map(|channel| self.side(channel).csr);
        let used = csrs.iter().any(|csr| csr >> 4 == 13 || csr & 15 == 13);
        if used && !self.draws.one_in(4) {
            let acr = self.draws.pick(&[0x60, 0x60, 0x60, 0xe0, 0x40]) | self.draws.small(16);
            self.write(6, 0)?;
            self.write(7, 1)?;
            return self.write(4, acr);
        }
        let acr = self.draws.byte();
        self.write(4, acr)
    }

    // ------------------------------------------------------------ commands

    pub fn enable(&mut self, channel: Channel) -> Stepped {
        let command = self.draws.pick(&[0x05, 0x05, 0x05, 0x05, 0x01, 0x04]);
        self.command(channel, command)
    }

    /// Any command, mostly one that leaves both sides as they are or turns them on.
    pub fn any_command(&mut self) -> Stepped {
        let channel = self.any_channel();
        let byte = match self.draws.below(4) {
            0 => self.draws.byte(),
            1 => self
                .draws
                .pick(&[0x20, 0x21, 0x30, 0x34, 0x02, 0x08, 0x25, 0x35]),
            _ => (self.draws.small(16) << 4) | self.draws.pick(&[0x00, 0x05]),
        };
        self.command(channel, byte)
    }

    // ------------------------------------------------------------ ports, interrupts, reads

    fn ports(&mut self) -> Stepped {
        let register = self.draws.pick(&[13, 13, 14, 15]);
        let byte = if register == 13 && !self.draws.one_in(4) {
            self.draws.byte() & 0xf4
        } else {
            self.draws.byte()
        };
        self.write(register, byte)
    }

    /// A mask of few bits, so that IRQ is not asserted all the time and one thing shows when it happens; the
    /// break changes show in no other line.
    fn interrupts(&mut self) -> Stepped {
        let imr = match self.draws.below(4) {
            0 => 0,
            1 => self.draws.byte(),
            2 => 0x44,
            _ => 1 << self.draws.small(8),
        };
        self.write(5, imr)?;
        if self.draws.one_in(4) {
            let ivr = self.draws.byte();
            self.write(12, ivr)?;
        }
        self.step(Event::Acknowledge).map(|_| ())
    }

    pub fn any_read(&mut self) -> Stepped {
        let register = self.draws.small(16);
        self.read(register).map(|_| ())
    }

    /// What shows most of what has happened: ISR and both status registers.
    pub fn look(&mut self) -> Stepped {
        for register in [5, 1, 9] {
            self.read(register)?;
        }
        Ok(())
    }

    /// What a program that serves a channel does: the status, and the byte, or several.
    pub fn serve(&mut self, channel: Channel) -> Stepped {
        for _ in 0..self.draws.between(1, 4) {
            let status = self.read(channel.register(1))?;
            if status & 1 == 0 && !self.draws.one_in(8) {
                break;
            }
            self.read(channel.register(3))?;
        }
        Ok(())
    }

    /// What a driver does that goes by fresh alone: it reads whatever the status is, more often than characters can be
    /// held, and the receiver may have been disabled, or reset, with characters in it.
    pub fn poll(&mut self, channel: Channel) -> Stepped {
        if self.draws.flip() {
            let command = self.draws.pick(&[0x02, 0x02, 0x20, 0x21]);
            self.command(channel, command)?;
        }
        for _ in 0..self.draws.between(1, 6) {
            self.read(channel.register(3))?;
        }
        Ok(())
    }

    // ------------------------------------------------------------ what is refused, and what is anything

    fn refused(&mut self) -> Stepped {
        let byte = self.draws.byte();
        let event = match self.draws.below(5) {
            0 => Event::Read(16 + self.draws.small(240)),
            1 => Event::Write(16 + self.draws.small(240), byte),
            2 => Event::Read(self.draws.pick(&[2, 10])),
            3 => Event::Write(
                self.draws.pick(&[2, 10]),
                byte | self.draws.pick(&[3, 12, 15]),
            ),
            _ => Event::Acknowledge,
        };
        self.step(event).map(|_| ())
    }

    fn any_pins(&mut self) -> Stepped {
        let levels = self.draws.byte();
        self.step(Event::Pins(levels)).map(|_| ())
    }

    /// CTS of either channel.
    pub fn move_cts(&mut self) -> Stepped {
        let (pin, high) = (self.draws.pick(&[0x01, 0x02, 0x03]), self.draws.one_in(3));
        self.drive(pin, high)
    }

    /// A record of any bytes but a chip reset's.
    fn any_record(&mut self) -> Stepped {
        let kind = self.draws.pick(&[1, 2, 3, 4, 5, 6, 7, 128, 255]);
        let (reg, byte) = (self.draws.small(20), self.draws.byte());
        self.step_record(EventRecord { kind, reg, byte })
            .map(|_| ())
    }

    /// Something short, at any moment: in a character too.
    pub fn disturb(&mut self) -> Stepped {
        match self.draws.below(20) {
            0..=2 => self.any_command(),
            3 => {
                let channel = self.any_channel();
                self.write_modes(channel, None)
            }
            4 | 13 => self.write_csr(),
            5 => self.time_code_13(),
            6 => self.interrupts(),
            7 => self.ports(),
            8 => self.counter_access(),
            9 => self.refused(),
            10 => self.any_pins(),
            11 => self.any_record(),
            12 => self.move_cts(),
            18 | 19 => {
                let channel = self.any_channel();
                self.disturb_mode(channel)
            }
            _ => self.any_read(),
        }
    }
}
