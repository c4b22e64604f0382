//! What the program on the board may do with order 2's modes: the start-up test in local loopback, the service desk's
//! echoes, and a mode change at any moment.

use crate::line;
use crate::modes;
use crate::script::{Channel, Clock, Script, Stepped};
use duart::{mode, Event};

const MODES: [u8; 4] = [mode::NORMAL, mode::AUTOMATIC_ECHO, mode::LOCAL_LOOPBACK, mode::REMOTE_LOOPBACK];
/// IP0 and IP1.
const CTS_PINS: u8 = 0x03;

impl Script<'_> {
    // ------------------------------------------------------------ mode changes

    /// Brings the pointer to MR2, by a read of MR1 where it is there.
    fn point_to_mr2(&mut self, channel: Channel) -> Stepped {
        if !self.side(channel).moved {
            self.read(channel.register(0))?;
        }
        Ok(())
    }

    /// The mode, with stop code and CTS as they are or others in the same byte.
    fn write_mode(&mut self, channel: Channel, mode: u8) -> Stepped {
        self.point_to_mr2(channel)?;
        let rest = if self.draws.one_in(4) {
            self.draws.small(32)
        } else {
            self.side(channel).mr2 & 0x1f
        };
        self.write(channel.register(0), mode | rest)
    }

    /// MR2 written at any moment: another mode, perhaps the same again, or one that bit 5 has refused.
    pub fn disturb_mode(&mut self, channel: Channel) -> Stepped {
        let before = modes::mode_of(self.side(channel));
        match self.draws.below(8) {
            0 => self.write_mode(channel, before),
            1 => {
                self.point_to_mr2(channel)?;
                let refused = 0x20 | self.draws.byte();
                self.write(channel.register(0), refused)
            }
            _ => self.visit_mode(channel, before),
        }
    }

    /// Another mode for some pulses, and usually the one of before again. An acknowledge right after may be refused.
    fn visit_mode(&mut self, channel: Channel, before: u8) -> Stepped {
        let mode = self.draws.pick(&MODES);
        self.write_mode(channel, mode)?;
        if self.draws.one_in(4) {
            self.step(Event::Acknowledge)?;
        }
        let clock = self.draws.pick(&[Clock::Receiver, Clock::Transmitter]);
        let pulses = self.draws.pick(&[0, 0, 1, 2, 9, 18]);
        self.pulses(channel, clock, pulses)?;
        if self.draws.one_in(6) {
            return Ok(());
        }
        self.write_mode(channel, before)
    }

    /// Usually back to normal mode, where what is held or asked may begin on the next pulse.
    fn leave_mode(&mut self, channel: Channel) -> Stepped {
        if self.draws.one_in(4) {
            return Ok(());
        }
        self.write_mode(channel, mode::NORMAL)?;
        let clock = self.draws.pick(&[Clock::Receiver, Clock::Transmitter]);
        let pulses = self.draws.pick(&[0, 1, 2, 20]);
        self.pulses(channel, clock, pulses)
    }

    /// The dividers run on in every mode, and RxD's level is stored: after some ticks in one mode or two, the tick shows at
    /// which RxD is echoed, and the one at which the byte that was held begins.
    pub fn time_mode(&mut self) -> Stepped {
        let channel = self.any_channel();
        let before = self.side(channel).csr;
        let csr = self.draws.pick(&[0xcc, 0xbb, 0xbc, 0xcb]);
        self.write(channel.register(1), csr)?;
        self.command(channel, 0x25)?;
        for _ in 0..self.draws.between(1, 2) {
            let (ticks, mode) = (self.draws.below(24), self.draws.pick(&MODES));
            self.ticks(ticks)?;
            self.write_mode(channel, mode)?;
            let rxd = self.draws.one_in(4);
            self.drive(channel.rxd(), rxd)?;
        }
        let ticks = self.draws.below(24);
        self.ticks(ticks)?;
        let echo = self.draws.pick(&[mode::AUTOMATIC_ECHO, mode::REMOTE_LOOPBACK]);
        self.write_mode(channel, echo)?;
        self.write(channel.register(3), 0)?;
        self.ticks(25)?;
        self.drive(CTS_PINS, false)?;
        self.write_mode(channel, mode::NORMAL)?;
        self.ticks(25)?;
        self.write(channel.register(1), before)
    }

    // ------------------------------------------------------------ local loopback

    /// The start-up test: what is sent comes round, on one channel or on both, whatever RxD does.
    pub fn loop_back(&mut self) -> Stepped {
        let channel = self.any_channel();
        let both = self.draws.one_in(3);
        for looped in Channel::BOTH {
            if both || looped == channel {
                self.write_mode(looped, mode::LOCAL_LOOPBACK)?;
                let command = self.draws.pick(&[0x05, 0x05, 0x05, 0x25, 0x35, 0x04, 0x01]);
                self.command(looped, command)?;
            }
        }
        let (cts, rxd) = (self.draws.one_in(6), self.draws.flip());
        self.drive(CTS_PINS, cts)?;
        self.drive(channel.rxd(), rxd)?;
        // Without it the receiver has no high before the first start bit.
        if !self.draws.one_in(6) {
            self.pulse(channel, Clock::Transmitter)?;
        }
        for _ in 0..self.draws.between(1, 7) {
            self.send_round(channel)?;
        }
        self.leave_mode(channel)
    }

    fn send_round(&mut self, channel: Channel) -> Stepped {
        if self.draws.one_in(7) {
            self.break_round(channel)?;
        } else {
            self.byte_round(channel)?;
        }
        match self.draws.below(8) {
            0 => self.look(),
            1 => self.serve(channel),
            2 => self.poll(channel),
            3 => self.move_cts(),
            4 => {
                let rxd = self.draws.flip();
                self.drive(channel.rxd(), rxd)
            }
            _ => Ok(()),
        }
    }

    /// A byte, with something else while it goes round now and then.
    fn byte_round(&mut self, channel: Channel) -> Stepped {
        let byte = self.draws.byte();
        self.write(channel.register(3), byte)?;
        let bits = self.draws.between(9, 12);
        if !self.draws.one_in(5) {
            return self.bits(channel, Clock::Transmitter, bits);
        }
        let first = if self.draws.one_in(3) {
            0
        } else {
            self.draws.below(bits)
        };
        let more = self.draws.below(16);
        self.bits(channel, Clock::Transmitter, first)?;
        self.pulses(channel, Clock::Transmitter, more)?;
        self.disturb_round(channel)?;
        self.bits(channel, Clock::Transmitter, bits - first)
    }

    /// Reset transmitter raises the looped level at once; the others let the frame finish or leave it.
    fn disturb_round(&mut self, channel: Channel) -> Stepped {
        match self.draws.below(4) {
            0 => {
                let command = self.draws.pick(&[0x30, 0x30, 0x34, 0x08, 0x02, 0x21, 0x60]);
                self.command(channel, command)
            }
            1 => self.disturb_line(channel),
            _ => self.disturb_mode(channel),
        }
    }

    /// A break that is received: after the stop the high bit that is owed ends it.
    fn break_round(&mut self, channel: Channel) -> Stepped {
        self.command(channel, 0x60)?;
        let bits = self.draws.between(9, 14);
        self.bits(channel, Clock::Transmitter, bits)?;
        if self.draws.flip() {
            self.command(channel, 0x50)?;
        }
        let end = self.draws.pick(&[0x70, 0x70, 0x70, 0x08, 0x34]);
        self.command(channel, end)?;
        let pulses = self.draws.between(1, 24);
        self.pulses(channel, Clock::Transmitter, pulses)?;
        if self.draws.one_in(4) {
            self.disturb_mode(channel)?;
        }
        self.command(channel, 0x05)
    }

    // ------------------------------------------------------------ the echo modes

    /// What the service desk tries: someone sends into RxD, at the receiver's own rate, and TxD echoes it.
    pub fn echo(&mut self) -> Stepped {
        let channel = self.any_channel();
        let mode = self.draws.pick(&[mode::AUTOMATIC_ECHO, mode::REMOTE_LOOPBACK]);
        self.write_mode(channel, mode)?;
        for _ in 0..self.draws.between(1, 4) {
            self.enable(channel)?;
            self.drive(channel.rxd(), true)?;
            self.pulse(channel, Clock::Receiver)?;
            let mr1 = self.side(channel).mr1;
            for span in line::burst(&mut self.draws, mr1) {
                self.hold(channel, channel.rxd(), span)?;
                if self.draws.one_in(5) {
                    self.disturb_echo(channel)?;
                }
            }
            if self.draws.one_in(4) {
                self.serve(channel)?;
            }
        }
        self.leave_mode(channel)
    }

    /// What raises the echo and what leaves it, and what waits for another mode: a byte, a break.
    fn disturb_echo(&mut self, channel: Channel) -> Stepped {
        match self.draws.below(10) {
            0..=2 => {
                let command = self.draws.pick(&[0x02, 0x02, 0x20, 0x21, 0x25, 0x30, 0x35]);
                self.command(channel, command)
            }
            3 => {
                let command = self.draws.pick(&[0x05, 0x08, 0x40, 0x50, 0x70]);
                self.command(channel, command)
            }
            4 => self.command(channel, 0x64),
            5 => {
                let byte = self.draws.byte();
                self.write(channel.register(3), byte)
            }
            6 => self.pulses(channel, Clock::Transmitter, 3),
            7 => self.disturb_mode(channel),
            _ => self.look(),
        }
    }
}

#[cfg(test)]
mod tests {
    use super::CTS_PINS;
    use crate::coverage::Coverage;
    use crate::script::{Channel, Clock, Script};
    use crate::sights::Sight;
    use duart::mode;

    #[test]
    fn a_mode_is_written_at_mr2_wherever_the_pointer_is() {
        let mut coverage = Coverage::default();
        let mut script = Script::with_seed(1, &mut coverage);
        for mode in [mode::LOCAL_LOOPBACK, mode::REMOTE_LOOPBACK, mode::NORMAL] {
            assert!(script.command(Channel::B, 0x10).is_ok());
            assert!(script.write_mode(Channel::B, mode).is_ok());
            assert_eq!(script.side(Channel::B).mr2 & 0xc0, mode);
        }
    }

    #[test]
    fn bytes_come_round() {
        let mut coverage = Coverage::default();
        let mut script = Script::with_seed(1, &mut coverage);
        assert!(script.write(Channel::A.register(1), 0xff).is_ok());
        for _ in 0..10 {
            assert!(script.write_mode(Channel::A, mode::LOCAL_LOOPBACK).is_ok());
            assert!(script.command(Channel::A, 0x05).is_ok());
            assert!(script.drive(CTS_PINS, false).is_ok());
            assert!(script.bits(Channel::A, Clock::Transmitter, 1).is_ok());
            assert!(script.byte_round(Channel::A).is_ok());
        }
        assert!(coverage.of(Sight::LoopedOnPin1X) >= 5);
    }

    #[test]
    fn lows_are_echoed_in_both_echo_modes() {
        let mut coverage = Coverage::default();
        let mut script = Script::with_seed(1, &mut coverage);
        for register in [1, 9] {
            assert!(script.write(register, 0xff).is_ok());
        }
        assert!((0..20).all(|_| script.echo().is_ok()));
        assert!(coverage.of(Sight::EchoedLows) > 0 && coverage.of(Sight::RemoteLows) > 0);
    }

    #[test]
    fn a_mode_changes_within_a_period() {
        let mut coverage = Coverage::default();
        let mut script = Script::with_seed(1, &mut coverage);
        assert!((0..4).all(|_| script.time_mode().is_ok()));
        assert!(coverage.of(Sight::ChangeWithinPeriod) > 0);
    }
}
