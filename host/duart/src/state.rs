//! The states of a receiver's sampler and of a transmitter by name: what their `phase` says.

use crate::device::{Device, Sampler, Transmitter};
use core::fmt;

/// What a receiver does with its line.
#[derive(Clone, Copy, Debug, PartialEq, Eq, Hash)]
pub enum SamplerState {
    /// 0: waits for a low after a high
    Hunting,
    /// 1: from the low pulse p to p+8, where it must still be low
    StartSeen,
    /// 2: a confirmed start under way
    StartConfirmed,
    /// 3: after a low stop
    AfterLowStop,
    /// 4: the wait for a break's end
    InBreak,
    /// A phase of an unsound device.
    Other(u8),
}

/// What a transmitter does with its line.
#[derive(Clone, Copy, Debug, PartialEq, Eq, Hash)]
pub enum TransmitterState {
    /// 0
    Idle,
    /// 1: sending a character
    Character,
    /// 2: sending a break
    Break,
    /// 3: the high bit after a break
    HighBit,
    /// A phase of an unsound device.
    Other(u8),
}

impl Sampler {
    /// The phase by name.
    #[must_use]
    pub const fn state(&self) -> SamplerState {
        match self.phase {
            0 => SamplerState::Hunting,
            1 => SamplerState::StartSeen,
            2 => SamplerState::StartConfirmed,
            3 => SamplerState::AfterLowStop,
            4 => SamplerState::InBreak,
            phase => SamplerState::Other(phase),
        }
    }
}

impl Transmitter {
    /// The phase by name.
    #[must_use]
    pub const fn state(&self) -> TransmitterState {
        match self.phase {
            0 => TransmitterState::Idle,
            1 => TransmitterState::Character,
            2 => TransmitterState::Break,
            3 => TransmitterState::HighBit,
            phase => TransmitterState::Other(phase),
        }
    }
}

impl Device {
    /// Every field in the range that docs/SOUND.md lists, and the rule on the waiting place.
    ///
    /// # Panics
    ///
    /// As [`Duart::fresh`](crate::Duart::fresh).
    #[must_use]
    pub fn is_sound(&self) -> bool {
        crate::assert_fits();
        crate::archive::sound(*self)
    }
}

impl fmt::Display for SamplerState {
    fn fmt(&self, to: &mut fmt::Formatter) -> fmt::Result {
        match self {
            SamplerState::Hunting => to.write_str("hunting"),
            SamplerState::StartSeen => to.write_str("a low that may be a start"),
            SamplerState::StartConfirmed => to.write_str("a confirmed start under way"),
            SamplerState::AfterLowStop => to.write_str("after a low stop"),
            SamplerState::InBreak => to.write_str("in a break"),
            SamplerState::Other(phase) => write!(to, "phase {phase}, which is unsound"),
        }
    }
}

impl fmt::Display for TransmitterState {
    fn fmt(&self, to: &mut fmt::Formatter) -> fmt::Result {
        match self {
            TransmitterState::Idle => to.write_str("idle"),
            TransmitterState::Character => to.write_str("sending a character"),
            TransmitterState::Break => to.write_str("sending a break"),
            TransmitterState::HighBit => to.write_str("the high bit after a break"),
            TransmitterState::Other(phase) => write!(to, "phase {phase}, which is unsound"),
        }
    }
}

#[cfg(test)]
mod tests {
    use super::{SamplerState, TransmitterState};
    use crate::bits::command;
    use crate::{Duart, Event, Register};

    /// 1X clocks of A: the receiver's on IP4, the transmitter's on IP3. Enabled, and one pulse of each with RxDA high.
    fn clocked() -> Duart {
        let mut chip = Duart::fresh();
        let both = command::ENABLE_RECEIVER | command::ENABLE_TRANSMITTER;
        for event in [Event::write(Register::CSRA, 0xff), Event::write(Register::CRA, both)] {
            assert!(chip.step(event).is_ok());
        }
        pulse(&mut chip, 0xff);
        chip
    }

    /// IP3 and IP4 low, then high again: a pulse of the transmitter, then one of the receiver.
    fn pulse(chip: &mut Duart, levels: u8) {
        assert!(chip.step(Event::Pins(levels & !0x18)).is_ok());
        assert!(chip.step(Event::Pins(levels | 0x18)).is_ok());
    }

    #[test]
    fn a_sampler_is_in_the_states_that_their_names_say() {
        let mut chip = clocked();
        let state = |chip: &Duart| chip.device().a.sampler.state();
        assert_eq!(state(&chip), SamplerState::Hunting);
        pulse(&mut chip, 0xbf);
        assert_eq!(state(&chip), SamplerState::StartConfirmed, "at 1X a low is a start, confirmed at once");
        (0..7).for_each(|_| pulse(&mut chip, 0xbf)); // 5 data bits, parity, stop
        assert_eq!(state(&chip), SamplerState::InBreak);
        pulse(&mut chip, 0xff);
        assert_eq!(state(&chip), SamplerState::Hunting);
        let mut sampler = chip.device().a.sampler;
        let states = [1, 3, 5].map(|phase| {
            sampler.phase = phase;
            sampler.state()
        });
        assert_eq!(states, [SamplerState::StartSeen, SamplerState::AfterLowStop, SamplerState::Other(5)]);
    }

    #[test]
    fn a_transmitter_is_in_the_states_that_their_names_say() {
        let mut chip = clocked();
        let state = |chip: &Duart| chip.device().front.a.transmitter.state();
        assert_eq!(state(&chip), TransmitterState::Idle);
        assert!(chip.step(Event::write(Register::CRA, command::START_BREAK)).is_ok());
        pulse(&mut chip, 0xff);
        assert_eq!(state(&chip), TransmitterState::Break);
        assert!(chip.step(Event::write(Register::CRA, command::STOP_BREAK)).is_ok());
        assert_eq!(state(&chip), TransmitterState::HighBit);
        assert!(chip.step(Event::write(Register::TBA, 0x15)).is_ok());
        (0..2).for_each(|_| pulse(&mut chip, 0xff));
        assert_eq!(state(&chip), TransmitterState::Character);
        let mut transmitter = chip.device().front.a.transmitter;
        transmitter.phase = 4;
        assert_eq!(transmitter.state().to_string(), "phase 4, which is unsound");
    }
}
