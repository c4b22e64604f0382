//! The rates, each by one pulse: most codes are so slow that a character at them would take more events than
//! a whole run has, so a fast clock brings a side to the pulse that shows, and the slow one gives that pulse.

use crate::script::{Channel, Clock, Script, Stepped};
use model::clock::Source;

/// Codes 0 to 12.
const CODES: u64 = 13;
/// 6 ticks a pulse, the fastest (ACR bit 7 clear).
const FASTEST: u8 = 12;

/// More 16X pulses than a start bit, 5 data bits and a parity bit last.
const FRAME_PULSES: u64 = 16 * 8;

/// A code in one of the two sets, for a receiver or a transmitter.
#[derive(Clone, Copy, Debug, PartialEq, Eq)]
pub struct Rate {
    code: u8,
    acr_bit_7: bool,
    clock: Clock,
}

impl Rate {
    /// As many seeds in a row as there are rates have them all.
    pub fn of_seed(seed: u64) -> Rate {
        let code = (seed % CODES) as u8;
        let set = seed / CODES;
        Rate {
            code,
            acr_bit_7: set % 2 == 1,
            clock: if (set / 2) % 2 == 1 {
                Clock::Receiver
            } else {
                Clock::Transmitter
            },
        }
    }

    fn period(self) -> u64 {
        match Source::from_code(self.code, self.acr_bit_7) {
            Source::Ticks(period) => u64::from(period),
            _ => 0,
        }
    }
}

impl Script<'_> {
    /// On a fresh chip: the pulse comes a full period after the write of CSR, and every tick is compared.
    pub fn time_rate(&mut self, rate: Rate) -> Stepped {
        let channel = self.any_channel();
        self.write(4, if rate.acr_bit_7 { 0x80 } else { 0 })?;
        match rate.clock {
            Clock::Transmitter => self.time_start(channel, rate),
            Clock::Receiver => self.time_arrival(channel, rate),
        }
    }

    /// TxD falls with the pulse.
    fn time_start(&mut self, channel: Channel, rate: Rate) -> Stepped {
        self.command(channel, 0x04)?;
        self.write(channel.register(3), 0)?;
        self.write(channel.register(1), rate.code)?;
        self.ticks(rate.period() + 1)
    }

    /// A character of ones is received up to its stop, whose sample is left to the slow clock. ISR asks for
    /// an interrupt with the arrival, so that the very tick shows.
    fn time_arrival(&mut self, channel: Channel, rate: Rate) -> Stepped {
        self.write(5, 0x22)?;
        self.write(channel.register(1), FASTEST << 4)?;
        self.command(channel, 0x01)?;
        self.pulse(channel, Clock::Receiver)?;
        self.drive(channel.rxd(), false)?;
        self.bits(channel, Clock::Receiver, 1)?;
        self.drive(channel.rxd(), true)?;
        for _ in 0..FRAME_PULSES {
            if !self.stop_is_next(channel) {
                self.pulse(channel, Clock::Receiver)?;
            }
        }
        self.write(channel.register(1), rate.code << 4)?;
        self.ticks(rate.period() + 1)
    }

    /// The next pulse takes the sample of the stop: 5 data bits and a parity bit are in, as MR1 is after a
    /// chip reset.
    fn stop_is_next(&self, channel: Channel) -> bool {
        let sampler = self.sampler(channel);
        sampler.taken.0 == 6 && sampler.left.0 == 0
    }
}

#[cfg(test)]
mod tests {
    use super::{Rate, CODES};
    use crate::coverage::Coverage;
    use crate::script::{Clock, Script};

    #[test]
    fn seeds_in_a_row_have_all_rates() {
        let rates: Vec<Rate> = (7..7 + 4 * CODES).map(Rate::of_seed).collect();
        let twice = |rate: &Rate| rates.iter().filter(|other| *other == rate).count() > 1;
        assert!(!rates.iter().any(twice));
        assert!(rates.iter().all(|rate| rate.period() >= 6));
    }

    #[test]
    fn each_rate_gives_its_pulse() {
        for seed in 0..4 * CODES {
            let rate = Rate::of_seed(seed);
            let mut coverage = Coverage::default();
            let mut script = Script::with_seed(seed, &mut coverage);
            assert!(script.time_rate(rate).is_ok());
            let device = script.device();
            let shown = match rate.clock {
                Clock::Receiver => device.a.queue.count + device.b.queue.count == 1,
                Clock::Transmitter => {
                    !(device.front.a.transmitter.txd && device.front.b.transmitter.txd)
                }
            };
            assert!(shown, "{rate:?}");
        }
    }
}
