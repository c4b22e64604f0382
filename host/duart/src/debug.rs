//! `{:?}` of a device: every field, the registers by the manual's names, the phases by what they are.

use crate::device::{Device, Receiver, Sampler, Side, Transmitter};
use crate::Duart;
use core::fmt::{Debug, Formatter, Result};

/// A byte as a manual writes it.
struct Hex(u8);

impl Debug for Hex {
    fn fmt(&self, to: &mut Formatter) -> Result {
        write!(to, "0x{:02x}", self.0)
    }
}

impl Debug for Duart {
    fn fmt(&self, to: &mut Formatter) -> Result {
        to.debug_tuple("Duart").field(self.device()).finish()
    }
}

impl Debug for Device {
    fn fmt(&self, to: &mut Formatter) -> Result {
        let Device { front, a, b } = self;
        to.debug_struct("Device")
            .field("ACR", &Hex(front.acr))
            .field("IMR", &Hex(front.imr))
            .field("IVR", &Hex(front.ivr))
            .field("OPCR", &Hex(front.outputs.opcr))
            .field("output_bits", &Hex(front.outputs.bits))
            .field("pins", &Hex(front.inputs.levels))
            .field("changes", &Hex(front.inputs.changes))
            .field("timer", &front.timer)
            .field("a", &Channel { names: ["MR1A", "MR2A", "CSRA"], side: &front.a, receiver: a })
            .field("b", &Channel { names: ["MR1B", "MR2B", "CSRB"], side: &front.b, receiver: b })
            .finish()
    }
}

struct Channel<'a> {
    names: [&'static str; 3],
    side: &'a Side,
    receiver: &'a Receiver,
}

impl Debug for Channel<'_> {
    fn fmt(&self, to: &mut Formatter) -> Result {
        let Side { mr1, mr2, moved, csr, enabled, echo, transmitter, phases } = self.side;
        to.debug_struct("Channel")
            .field(self.names[0], &Hex(*mr1))
            .field(self.names[1], &Hex(*mr2))
            .field(self.names[2], &Hex(*csr))
            .field("moved", moved)
            .field("echo", echo)
            .field("transmitter", transmitter)
            .field("phases", phases)
            .field("receiver_enabled", enabled)
            .field("receiver", self.receiver)
            .finish()
    }
}

impl Debug for Transmitter {
    fn fmt(&self, to: &mut Formatter) -> Result {
        let Transmitter { enabled, full, holding, phase: _, shifter, left, asked, txd } = self;
        to.debug_struct("Transmitter")
            .field("enabled", enabled)
            .field("full", full)
            .field("holding", &Hex(*holding))
            .field("state", &self.state())
            .field("shifter", shifter)
            .field("left", left)
            .field("asked", asked)
            .field("txd", txd)
            .finish()
    }
}

impl Debug for Sampler {
    fn fmt(&self, to: &mut Formatter) -> Result {
        let Sampler { phase: _, high, left, setting, taken, value } = self;
        to.debug_struct("Sampler")
            .field("state", &self.state())
            .field("high", high)
            .field("left", left)
            .field("setting", setting)
            .field("taken", taken)
            .field("value", value)
            .finish()
    }
}

#[cfg(test)]
mod tests {
    use crate::saved::tests::{drawn, saved_places, with_byte};
    use crate::{Duart, Event, Register};

    #[test]
    fn registers_and_states_have_their_names() {
        let mut chip = Duart::fresh();
        assert!(chip.step(Event::write(Register::CSRB, 0xbb)).is_ok());
        let text = format!("{chip:?}");
        for part in [
            "Duart(Device { ACR: 0x00, IMR: 0x00, IVR: 0x0f, OPCR: 0x00, ",
            "a: Channel { MR1A: 0x00, MR2A: 0x00, CSRA: 0x00, moved: false, ",
            "b: Channel { MR1B: 0x00, MR2B: 0x00, CSRB: 0xbb, moved: false, ",
            "transmitter: Transmitter { enabled: false, full: false, holding: 0x00, state: Idle, ",
            "receiver: Receiver { sampler: Sampler { state: Hunting, high: false, ",
        ] {
            assert!(text.contains(part), "no {part:?} in {text}");
        }
        assert!(format!("{chip:#?}").contains("\n        IVR: 0x0f,\n"));
    }

    /// Two devices that differ look different, whichever byte of them it is.
    #[test]
    fn every_field_is_shown() {
        for seed in 0..4 {
            let device = drawn(seed);
            for place in saved_places() {
                let other = with_byte(&device, place);
                assert_ne!(device, other, "byte {place}");
                assert_ne!(format!("{device:?}"), format!("{other:?}"), "byte {place}");
            }
        }
    }
}
