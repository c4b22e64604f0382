//! What the program on the board may do to the counter/timer.

use crate::script::{Channel, Clock, Script, Stepped};

impl Script<'_> {
    /// A mode with a small preload, so that terminal counts are near, and clocks that bring them.
    pub fn count(&mut self) -> Stepped {
        let preload = self.draws.pick(&[0, 1, 1, 2, 2, 3, 5, 17]);
        self.write(6, 0)?;
        self.write(7, preload)?;
        let keep = self.device().front.acr & 0x8f;
        let acr = keep | (self.draws.small(8) << 4);
        self.write(4, acr)?;
        // ISR bit 3 alone may interrupt, so that a start that sets it (order 4) shows in IRQ.
        if self.draws.one_in(3) {
            self.write(5, 0x08)?;
        }
        for _ in 0..self.draws.between(1, 4) {
            self.read(14)?;
            self.clock_counter()?;
            self.read(7)?;
            if self.draws.flip() {
                self.read(15)?;
            }
        }
        Ok(())
    }

    fn clock_counter(&mut self) -> Stepped {
        let count = self.draws.below(48);
        match (self.device().front.acr >> 4) & 7 {
            1 => self.pulses(Channel::A, Clock::Transmitter, count),
            2 => self.pulses(Channel::B, Clock::Transmitter, count),
            3 | 6 | 7 => self.ticks(4 * count),
            _ => self.ip2_pulses(count),
        }
    }

    /// All of the count's 65,536 values, from a preload of 0.
    pub fn long_count(&mut self) -> Stepped {
        self.write(6, 0)?;
        self.write(7, 0)?;
        self.write(4, 0x60)?;
        self.read(14)?;
        self.ticks(65_536 + 8)
    }

    /// One access, at any moment.
    pub fn counter_access(&mut self) -> Stepped {
        match self.draws.below(4) {
            0 => {
                let (register, byte) = (self.draws.pick(&[6, 7]), self.draws.small(4));
                self.write(register, byte)
            }
            _ => {
                let register = self.draws.pick(&[14, 15, 6, 7, 5]);
                self.read(register).map(|_| ())
            }
        }
    }
}
