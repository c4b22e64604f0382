//! Devices drawn field by field, whether a chip reset leads there or not: any value of each field's type, or
//! of its range, or of its range in all fields but one.

use crate::generator::Generator;
use crate::sound::{is_accepted_mr1, is_accepted_mr2, is_accepted_opcr};
use duart::device::{
    Bits, Character, Device, Format, FrameBits, Front, Inputs, Marks, Outputs, Phases, Pulses,
    Queue, Receiver, Sampler, Setting, Shifter, Side, Ticks, Timer, Transmitter,
};

/// A device of one of the three sorts; half of them are sound but for one field.
pub fn device(draws: &mut Generator) -> Device {
    match draws.below(8) {
        0 => Drawing { draws, wild: true }.device(),
        1..=3 => Drawing { draws, wild: false }.device(),
        _ => one_field_off(draws),
    }
}

/// Copies one field. The lists have all the fields whose range is narrower than their type.
type CopyField<T> = fn(&mut T, &T);

const FRONT_FIELDS: [CopyField<Front>; 4] = [
    |to, from| to.timer.ticks = from.timer.ticks,
    |to, from| to.timer.edges = from.timer.edges,
    |to, from| to.inputs.changes = from.inputs.changes,
    |to, from| to.outputs.opcr = from.outputs.opcr,
];

const SIDE_FIELDS: [CopyField<Side>; 9] = [
    |to, from| to.mr1 = from.mr1,
    |to, from| to.mr2 = from.mr2,
    |to, from| to.transmitter.phase = from.transmitter.phase,
    |to, from| to.transmitter.left = from.transmitter.left,
    |to, from| to.transmitter.shifter.length = from.transmitter.shifter.length,
    |to, from| to.transmitter.shifter.sent = from.transmitter.shifter.sent,
    |to, from| to.phases.receiver = from.phases.receiver,
    |to, from| to.phases.transmitter = from.phases.transmitter,
    |to, from| to.phases.sixteenths = from.phases.sixteenths,
];

const RECEIVER_FIELDS: [CopyField<Receiver>; 7] = [
    |to, from| to.sampler.phase = from.sampler.phase,
    |to, from| to.sampler.left = from.sampler.left,
    |to, from| to.sampler.setting.format.width = from.sampler.setting.format.width,
    |to, from| to.sampler.setting.format.parity = from.sampler.setting.format.parity,
    |to, from| to.sampler.taken = from.sampler.taken,
    |to, from| to.sampler.value = from.sampler.value,
    |to, from| to.queue.count = from.queue.count,
];

fn one_field_off(draws: &mut Generator) -> Device {
    let mut device = Drawing { draws, wild: false }.device();
    let off = Drawing { draws, wild: true }.device();
    match draws.below(9) {
        0 => draws.pick(&FRONT_FIELDS)(&mut device.front, &off.front),
        1..=2 => draws.pick(&SIDE_FIELDS)(&mut device.front.a, &off.front.a),
        3..=4 => draws.pick(&SIDE_FIELDS)(&mut device.front.b, &off.front.b),
        5..=6 => draws.pick(&RECEIVER_FIELDS)(&mut device.a, &off.a),
        _ => draws.pick(&RECEIVER_FIELDS)(&mut device.b, &off.b),
    }
    device
}

struct Drawing<'a> {
    draws: &'a mut Generator,
    /// Any value of the type, and not of the range alone.
    wild: bool,
}

impl Drawing<'_> {
    // ------------------------------------------------------------ values

    /// Up to `most`, its ends more often; wild, also the first value past it, or any.
    fn number(&mut self, most: u64) -> u64 {
        match (self.wild, self.draws.below(8)) {
            (true, 0..=1) => most + 1,
            (true, 2..=4) => self.draws.draw(),
            (_, 5) => 0,
            (_, 6) => most,
            _ => self.draws.below(most + 1),
        }
    }

    fn up_to(&mut self, most: u8) -> u8 {
        self.number(u64::from(most)).to_le_bytes()[0]
    }

    fn pulses(&mut self, most: u8) -> Pulses {
        Pulses(self.up_to(most))
    }

    fn byte(&mut self) -> u8 {
        self.draws.byte()
    }

    fn flag(&mut self) -> bool {
        self.draws.flip()
    }

    /// A byte that a register takes; wild, any.
    fn register(&mut self, is_accepted: fn(u8) -> bool) -> u8 {
        loop {
            let byte = self.draws.byte();
            if self.wild || is_accepted(byte) {
                return byte;
            }
        }
    }

    // ------------------------------------------------------------ the device, from its parts

    fn device(&mut self) -> Device {
        Device {
            front: self.front(),
            a: self.receiver(),
            b: self.receiver(),
        }
    }

    fn front(&mut self) -> Front {
        Front {
            a: self.side(),
            b: self.side(),
            timer: self.timer(),
            inputs: Inputs {
                levels: self.byte(),
                changes: self.up_to(15),
            },
            outputs: Outputs {
                bits: self.byte(),
                opcr: self.register(is_accepted_opcr),
            },
            acr: self.byte(),
            imr: self.byte(),
            ivr: self.byte(),
        }
    }

    fn side(&mut self) -> Side {
        Side {
            mr1: self.register(is_accepted_mr1),
            mr2: self.register(is_accepted_mr2),
            moved: self.flag(),
            csr: self.byte(),
            enabled: self.flag(),
            echo: self.flag(),
            transmitter: self.transmitter(),
            phases: Phases {
                receiver: Ticks(self.number(4607)),
                transmitter: Ticks(self.number(4607)),
                sixteenths: self.pulses(15),
            },
        }
    }

    fn transmitter(&mut self) -> Transmitter {
        Transmitter {
            enabled: self.flag(),
            full: self.flag(),
            holding: self.byte(),
            phase: self.up_to(3),
            shifter: Shifter {
                frame: FrameBits(self.draws.word()),
                sixteen: self.flag(),
                length: self.pulses(192),
                sent: self.pulses(192),
            },
            left: self.pulses(15),
            asked: self.flag(),
            txd: self.flag(),
        }
    }

    fn timer(&mut self) -> Timer {
        Timer {
            preload: self.draws.word(),
            count: self.draws.word(),
            running: self.flag(),
            output: self.flag(),
            ready: self.flag(),
            ticks: Ticks(self.number(15)),
            edges: self.pulses(15),
        }
    }

    /// In range, and with the rule on the waiting place; wild, perhaps without.
    fn receiver(&mut self) -> Receiver {
        let sampler = self.sampler();
        let confirmed_start = sampler.phase == 2;
        let most = if confirmed_start && !self.wild { 3 } else { 4 };
        Receiver {
            sampler,
            queue: self.queue(most),
            overrun: self.flag(),
            sums: self.marks(),
            change: self.flag(),
            last: self.byte(),
        }
    }

    fn sampler(&mut self) -> Sampler {
        let format = Format {
            width: Bits(self.up_to(3).wrapping_add(5)),
            parity: self.up_to(2),
            odd: self.flag(),
        };
        Sampler {
            phase: self.up_to(4),
            high: self.flag(),
            left: self.pulses(15),
            setting: Setting {
                format,
                sixteen: self.flag(),
            },
            taken: Bits(self.up_to(9)),
            value: self.number(511) as u16,
        }
    }

    fn queue(&mut self, most: u8) -> Queue {
        Queue {
            count: self.up_to(most),
            first: self.character(),
            second: self.character(),
            third: self.character(),
            waiting: self.character(),
        }
    }

    fn character(&mut self) -> Character {
        Character {
            byte: self.byte(),
            marks: self.marks(),
        }
    }

    fn marks(&mut self) -> Marks {
        Marks {
            broken: self.flag(),
            framing: self.flag(),
            parity: self.flag(),
        }
    }
}
