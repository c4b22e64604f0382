//! One script under way: the pair of chips, the draws, the wires from TxD to RxD, and the clocks that bring
//! a channel its pulses. What a script does is in scripts.rs and program.rs.

use crate::coverage::{Coverage, PIN_EVENT};
use crate::generator::Generator;
use crate::pair::{Difference, Pair};
use duart::device::{Device, Sampler, Side};
use duart::{Event, EventRecord, Seen};
use model::clock::Source;

pub type Stepped = Result<(), Difference>;

#[derive(Clone, Copy, Debug, PartialEq, Eq)]
pub enum Channel {
    A,
    B,
}

impl Channel {
    pub const BOTH: [Channel; 2] = [Channel::A, Channel::B];

    /// A register of the channel, 0 to 3 as they are for A.
    pub fn register(self, register: u8) -> u8 {
        match self {
            Channel::A => register,
            Channel::B => 8 + register,
        }
    }

    /// The bit of RxD in a pin event.
    pub fn rxd(self) -> u8 {
        match self {
            Channel::A => 0x40,
            Channel::B => 0x80,
        }
    }
}

/// The two clocks of a channel.
#[derive(Clone, Copy, Debug, PartialEq, Eq)]
pub enum Clock {
    Receiver,
    Transmitter,
}

/// IP2 to IP5, the clocks of both channels.
const CLOCK_PINS: u8 = 0x3c;
/// IP3 and IP5, on whose falling edges a transmitter has its pulse.
const FALLING_PINS: u8 = 0x28;
/// IP4 and IP2, on whose rising edges a receiver has its pulse.
const RISING_PINS: u8 = 0x14;
const IP2: u8 = 0x04;
/// A wait for a slow clock is usually broken off after so many events; its phase goes on with the next.
const PATIENCE: u64 = 12;

/// For RxDA and RxDB: whose TxD it is wired to.
#[derive(Clone, Copy, Default)]
pub struct Wires {
    pub rxda: Option<Channel>,
    pub rxdb: Option<Channel>,
}

impl Wires {
    /// The pins, the wired ones at the levels that the transmitters drive.
    fn pull(self, levels: u8, seen: Seen) -> u8 {
        let mut levels = levels;
        for (wire, rxd) in [(self.rxda, 0x40), (self.rxdb, 0x80)] {
            levels = match wire {
                Some(Channel::A) => with_bits(levels, rxd, seen.txda),
                Some(Channel::B) => with_bits(levels, rxd, seen.txdb),
                None => levels,
            };
        }
        levels
    }
}

fn with_bits(levels: u8, bits: u8, high: bool) -> u8 {
    if high {
        levels | bits
    } else {
        levels & !bits
    }
}

pub struct Script<'a> {
    pub draws: Generator,
    pub wires: Wires,
    pub pair: Pair,
    /// The pins as they were driven last; what the chip makes of them is its own.
    levels: u8,
    coverage: &'a mut Coverage,
}

impl Script<'_> {
    pub fn with_seed(seed: u64, coverage: &mut Coverage) -> Script<'_> {
        coverage.begin();
        Script {
            draws: Generator::with_seed(seed),
            wires: Wires::default(),
            pair: Pair::fresh(),
            levels: 0xff,
            coverage,
        }
    }

    pub fn device(&self) -> &Device {
        self.pair.device()
    }

    pub fn side(&self, channel: Channel) -> &Side {
        match channel {
            Channel::A => &self.device().front.a,
            Channel::B => &self.device().front.b,
        }
    }

    pub fn sampler(&self, channel: Channel) -> &Sampler {
        match channel {
            Channel::A => &self.device().a.sampler,
            Channel::B => &self.device().b.sampler,
        }
    }

    // ------------------------------------------------------------ events

    pub fn step(&mut self, event: Event) -> Result<Seen, Difference> {
        self.step_record(event.into())
    }

    /// One event, and where it moves a wired TxD, the pin event that the wire makes of it.
    pub fn step_record(&mut self, record: EventRecord) -> Result<Seen, Difference> {
        let seen = self.step_once(record)?;
        let pulled = self.wires.pull(self.levels, seen);
        if pulled != self.levels {
            self.step_once(Event::Pins(pulled).into())?;
        }
        Ok(seen)
    }

    fn step_once(&mut self, record: EventRecord) -> Result<Seen, Difference> {
        if record.kind == PIN_EVENT {
            self.levels = record.byte;
        }
        let seen = self.pair.step(record)?;
        let (before, after) = (self.pair.device_before(), self.pair.device());
        self.coverage.see(before, record, seen, after);
        Ok(seen)
    }

    pub fn write(&mut self, register: u8, byte: u8) -> Stepped {
        self.step(Event::Write(register, byte)).map(|_| ())
    }

    pub fn read(&mut self, register: u8) -> Result<u8, Difference> {
        self.step(Event::Read(register)).map(|seen| seen.data)
    }

    pub fn command(&mut self, channel: Channel, byte: u8) -> Stepped {
        self.write(channel.register(2), byte)
    }

    pub fn ticks(&mut self, count: u64) -> Stepped {
        for _ in 0..count {
            self.step(Event::Tick)?;
        }
        Ok(())
    }

    /// Drives some pins and leaves the others.
    pub fn drive(&mut self, bits: u8, high: bool) -> Stepped {
        let event = Event::Pins(with_bits(self.levels, bits, high));
        self.step(event).map(|_| ())
    }

    // ------------------------------------------------------------ clocks

    /// The source of a clock as CSR and ACR stand.
    fn source(&self, channel: Channel, clock: Clock) -> Source {
        let csr = self.side(channel).csr;
        let code = match clock {
            Clock::Receiver => csr >> 4,
            Clock::Transmitter => csr & 15,
        };
        Source::from_code(code, self.device().front.acr >> 7 == 1)
    }

    pub fn is_one_x(&self, channel: Channel, clock: Clock) -> bool {
        matches!(self.source(channel, clock), Source::PinOneX)
    }

    /// The events that bring a clock one pulse, whatever drives it.
    pub fn pulse(&mut self, channel: Channel, clock: Clock) -> Stepped {
        match self.source(channel, clock) {
            Source::Ticks(period) => self.wait_ticks(u64::from(period)),
            Source::TimerToggleToHigh => self.timer_pulse(),
            Source::PinSixteenX | Source::PinOneX => self.pin_pulse(),
        }
    }

    /// Few events of a script are to be spent on slow clocks: now and then the whole period, usually a part.
    fn worth(&mut self, events: u64) -> u64 {
        if self.draws.one_in(256) {
            events
        } else {
            events.min(PATIENCE)
        }
    }

    fn wait_ticks(&mut self, ticks: u64) -> Stepped {
        let ticks = self.worth(ticks);
        self.ticks(ticks)
    }

    fn wait_ip2(&mut self, pulses: u64) -> Stepped {
        let pulses = self.worth(pulses);
        self.ip2_pulses(pulses)
    }

    /// Two toggles of the timer; in a counter mode there are none to wait for.
    fn timer_pulse(&mut self) -> Stepped {
        let front = &self.device().front;
        let terminals = 2 * u64::from(front.timer.preload).clamp(1, 64);
        match (front.acr >> 4) & 7 {
            4 => self.wait_ip2(terminals),
            5 => self.wait_ip2(16 * terminals),
            6 => self.wait_ticks(terminals),
            7 => self.wait_ticks(16 * terminals),
            _ => self.ticks(1),
        }
    }

    pub fn ip2_pulses(&mut self, count: u64) -> Stepped {
        for _ in 0..count {
            self.drive(IP2, false)?;
            self.drive(IP2, true)?;
        }
        Ok(())
    }

    /// Usually all four clock pins, so that each side that goes by a pin gets its pulse; now and then in one event, in
    /// which the transmitters' pins fall and the receivers' rise.
    fn pin_pulse(&mut self) -> Stepped {
        if self.draws.one_in(16) {
            let levels = self.levels & !CLOCK_PINS;
            self.step(Event::Pins(levels | FALLING_PINS))?;
            return self.step(Event::Pins(levels | RISING_PINS)).map(|_| ());
        }
        let pins = if self.draws.one_in(64) {
            CLOCK_PINS & self.draws.byte()
        } else {
            CLOCK_PINS
        };
        self.drive(pins, false)?;
        self.drive(pins, true)
    }

    pub fn pulses(&mut self, channel: Channel, clock: Clock, count: u64) -> Stepped {
        for _ in 0..count {
            self.pulse(channel, clock)?;
        }
        Ok(())
    }

    /// Pulses that last so many bits.
    pub fn bits(&mut self, channel: Channel, clock: Clock, count: u64) -> Stepped {
        let per_bit = if self.is_one_x(channel, clock) { 1 } else { 16 };
        self.pulses(channel, clock, per_bit * count)
    }
}

#[cfg(test)]
mod tests {
    use super::{with_bits, Channel, Wires};
    use duart::{Duart, Event};

    #[test]
    fn a_wire_pulls_its_own_pin_only() {
        let mut seen = Duart::fresh().step_raw(Event::Tick);
        seen.txda = false;
        let wires = Wires {
            rxda: None,
            rxdb: Some(Channel::A),
        };
        assert_eq!(wires.pull(0xff, seen), 0x7f);
        assert_eq!(Wires::default().pull(0x15, seen), 0x15);
    }

    #[test]
    fn bits_are_driven_high_or_low() {
        assert_eq!(with_bits(0x0f, 0x18, true), 0x1f);
        assert_eq!(with_bits(0x0f, 0x18, false), 0x07);
    }
}
