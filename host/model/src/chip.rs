//! The whole chip: one event, one answer.

use crate::channel::{Channel, ChannelPins, Pulses};
use crate::clock::Moment;
use crate::counter_timer::CounterTimer;
use crate::pins::{Edge, Move, Pin, Pins};
use crate::ports::{InputPort, OutputPort};
use crate::refusals::ACCEPTED;

/// "Events: chip reset; read register n; write register n with a byte; interrupt acknowledge; pins (byte:
/// bits 0-5 IP0-IP5, 6 RxDA, 7 RxDB); tick."
#[derive(Clone, Copy, Debug, PartialEq, Eq)]
pub enum Event {
    ChipReset,
    Read(u8),
    Write(u8, u8),
    Acknowledge,
    Pins(u8),
    Tick,
}

/// "The answer has the number, the data byte (0 where none is read), IRQ (1 when asserted), TxDA, TxDB,
/// the OP0-OP7 levels and the new state." Order 1: "The receive buffer read shall also say fresh or stale",
/// and "any other event is stale", so every answer says it.
#[derive(Clone, Copy, Debug, PartialEq, Eq)]
pub struct Seen {
    pub number: u8,
    pub data: u8,
    pub fresh: bool,
    pub irq: bool,
    pub txda: bool,
    pub txdb: bool,
    pub op: u8,
}

#[derive(Clone)]
pub struct Chip {
    pub a: Channel,
    pub b: Channel,
    pub counter_timer: CounterTimer,
    pub(crate) inputs: InputPort,
    pub(crate) outputs: OutputPort,
    pub(crate) acr: u8,
    pub(crate) imr: u8,
    pub(crate) ivr: u8,
}

impl Chip {
    /// "A fresh device is the state after a chip reset with all pins high."
    pub fn fresh() -> Chip {
        Chip::after_chip_reset(Pins::ALL_HIGH)
    }

    /// "Chip reset: IVR 15, every other register, preload, count, phase, flag, mark, last byte read and
    /// output bit 0". "Pin levels stay."
    fn after_chip_reset(levels: Pins) -> Chip {
        Chip {
            a: Channel::after_chip_reset(ChannelPins::A),
            b: Channel::after_chip_reset(ChannelPins::B),
            counter_timer: CounterTimer::after_chip_reset(),
            inputs: InputPort::after_chip_reset(levels),
            outputs: OutputPort::after_chip_reset(),
            acr: 0,
            imr: 0,
            ivr: 15,
        }
    }

    /// "Refused: data 0, the state as given, lines as that state drives them"; order 1: "a refused read or
    /// any other event is stale."
    pub fn step(&mut self, event: Event) -> Seen {
        let number = self.number(event);
        if number != ACCEPTED {
            return self.seen(number, 0, false);
        }
        let fresh = self.would_be_fresh(event);
        let data = self.accept(event);
        self.seen(number, data, fresh)
    }

    /// Order 1: "fresh exactly when RxRDY was set before it": the bit of SR, so neither MR1 bit 6 nor the
    /// receiver's enable plays a part.
    fn would_be_fresh(&self, event: Event) -> bool {
        match event {
            Event::Read(3) => self.a.receiver.queue.is_ready(),
            Event::Read(11) => self.b.receiver.queue.is_ready(),
            _ => false,
        }
    }

    /// The data byte, "0 where none is read".
    fn accept(&mut self, event: Event) -> u8 {
        match event {
            Event::ChipReset => *self = Chip::after_chip_reset(self.inputs.levels()),
            Event::Read(register) => return self.read(register),
            Event::Write(register, byte) => self.write(register, byte),
            // "acknowledge then reads IVR and changes nothing."
            Event::Acknowledge => return self.ivr,
            Event::Pins(levels) => {
                self.set_pins(levels);
            }
            Event::Tick => {
                self.tick();
            }
        }
        0
    }

    pub(crate) fn seen(&self, number: u8, data: u8, fresh: bool) -> Seen {
        let isr = self.isr();
        Seen {
            number,
            data,
            fresh,
            irq: self.irq_is_asserted(isr),
            txda: self.a.txd().is_high(),
            txdb: self.b.txd().is_high(),
            op: self.outputs.pins(isr, self.counter_timer.op3()),
        }
    }

    // ------------------------------------------------------------ ticks and pins
    // "Order in a tick or pin event: levels and flags; counter/timer from ticks or IP2; transmitter then
    // receiver of A; the same of B; counter from a 1X transmitter clock"

    /// A tick, and which clocks of A and of B it pulsed, which `step` does not tell.
    pub fn tick(&mut self) -> [Pulses; 2] {
        let timer_toggled_to_high = self.counter_timer.tick();
        self.clock_channels(Moment {
            tick: true,
            timer_toggled_to_high,
            pins: Move::none(self.inputs.levels()),
        })
    }

    /// A pin event, and which clocks of A and of B it pulsed.
    pub fn set_pins(&mut self, levels: u8) -> [Pulses; 2] {
        let pins = self.inputs.set_levels(Pins(levels));
        let rising_ip2 = pins.has(Edge::Rising(Pin::Ip2));
        let timer_toggled_to_high = rising_ip2 && self.counter_timer.rising_ip2();
        self.clock_channels(Moment {
            tick: false,
            timer_toggled_to_high,
            pins,
        })
    }

    fn clock_channels(&mut self, moment: Moment) -> [Pulses; 2] {
        let a = self.a.clocked(moment);
        let b = self.b.clocked(moment);
        if a.transmitter_one_x {
            self.counter_timer.txca_one_x();
        }
        if b.transmitter_one_x {
            self.counter_timer.txcb_one_x();
        }
        [a, b]
    }
}
