//! `{}` of a device: what a person at a debugger asks of it, by the names of the registers and states. `{:?}` has every
//! field.

use crate::bits::{acr, isr, mr2, pins, sr};
use crate::device::{Character, Device, Marks, Receiver, Sampler, Side, Timer};
use crate::{archive, mode, Duart, Event, Register, SamplerState, TransmitterState};
use core::fmt::{Display, Formatter, Result};

impl Display for Duart {
    fn fmt(&self, to: &mut Formatter) -> Result {
        self.device().fmt(to)
    }
}

impl Display for Device {
    fn fmt(&self, to: &mut Formatter) -> Result {
        let front = &self.front;
        let sound = if self.is_sound() { "sound" } else { "unsound: every event is refused with 1" };
        writeln!(to, "MC68681, {sound}")?;
        write!(to, "IVR {:02x}, IMR {}", front.ivr, Named(front.imr, &isr::NAMES))?;
        write_read(to, self, "ISR", Register::ISR, &isr::NAMES)?;
        writeln!(to)?;
        write_timer(to, front.acr, &front.timer)?;
        let (levels, changes) = (front.inputs.levels, front.inputs.changes);
        writeln!(to, "high pins {}, changed {}", Named(levels, &pins::NAMES), Named(changes, &pins::NAMES))?;
        writeln!(to, "output bits {:02x}, OPCR {:02x}", front.outputs.bits, front.outputs.opcr)?;
        write_channel(to, self, &A)?;
        write_channel(to, self, &B)
    }
}

/// A byte, and the names of the bits that are set.
struct Named<'a>(u8, &'a [&'static str; 8]);

impl Display for Named<'_> {
    fn fmt(&self, to: &mut Formatter) -> Result {
        write!(to, "{:02x}", self.0)?;
        let mut before = " (";
        for (_, name) in self.1.iter().enumerate().filter(|(bit, _)| (self.0 >> bit) & 1 == 1) {
            write!(to, "{before}{name}")?;
            before = ", ";
        }
        to.write_str(if self.0 == 0 { "" } else { ")" })
    }
}

/// What a read of ISR or SR finds, which changes nothing and is done on a copy; nothing where the device is unsound.
fn write_read(to: &mut Formatter, device: &Device, name: &str, register: Register, bits: &[&'static str; 8]) -> Result {
    let mut copy = *device;
    let seen = archive::step(&mut copy, Event::read(register).into());
    if seen.number != 0 {
        return Ok(());
    }
    write!(to, ", {name} {}", Named(seen.data, bits))
}

fn write_timer(to: &mut Formatter, control: u8, timer: &Timer) -> Result {
    let mode = acr::MODES[usize::from((control & acr::MODE.byte()) >> 4)];
    let rates = u8::from(acr::RATES_1.are_in(control));
    let running = if timer.running { "running" } else { "stopped" };
    let ready = if timer.ready { ", ISR bit 3 set" } else { "" };
    write!(to, "ACR {control:02x}: {mode}, rates {rates}; preload {}, count {}, ", timer.preload, timer.count)?;
    writeln!(to, "{running}, output {}{ready}", level(timer.output))
}

// ------------------------------------------------------------ a channel

/// What is A's and what is B's.
struct Channel {
    letter: char,
    side: fn(&Device) -> &Side,
    receiver: fn(&Device) -> &Receiver,
    status: Register,
}

const A: Channel =
    Channel { letter: 'A', side: |device| &device.front.a, receiver: |device| &device.a, status: Register::SRA };
const B: Channel =
    Channel { letter: 'B', side: |device| &device.front.b, receiver: |device| &device.b, status: Register::SRB };

fn write_channel(to: &mut Formatter, device: &Device, channel: &Channel) -> Result {
    let (side, letter) = ((channel.side)(device), channel.letter);
    let mode = match side.mr2 & mr2::MODE.byte() {
        mode::NORMAL => "normal",
        mode::AUTOMATIC_ECHO => "automatic echo",
        mode::LOCAL_LOOPBACK => "local loopback",
        _ => "remote loopback",
    };
    let pointer = if side.moved { 2 } else { 1 };
    write!(to, "channel {letter}, {mode}: MR1{letter} {:02x}, MR2{letter} {:02x}, ", side.mr1, side.mr2)?;
    write!(to, "pointer at MR{pointer}{letter}, CSR{letter} {:02x}", side.csr)?;
    let name = if letter == 'A' { "SRA" } else { "SRB" };
    write_read(to, device, name, channel.status, &sr::NAMES)?;
    writeln!(to)?;
    write_transmitter(to, side)?;
    write_receiver(to, side.enabled, (channel.receiver)(device))
}

fn write_transmitter(to: &mut Formatter, side: &Side) -> Result {
    let transmitter = &side.transmitter;
    write!(to, "  transmitter {}, {}", able(transmitter.enabled), transmitter.state())?;
    if transmitter.state() == TransmitterState::Character {
        write!(to, ", {} of {} pulses", transmitter.shifter.sent.0, transmitter.shifter.length.0)?;
    }
    match transmitter.full {
        true => write!(to, "; holds {:02x}", transmitter.holding)?,
        false => to.write_str("; holds nothing")?,
    }
    let asked = if transmitter.asked { "; a break is asked" } else { "" };
    writeln!(to, "; level {}{asked}", level(transmitter.txd))
}

fn write_receiver(to: &mut Formatter, enabled: bool, receiver: &Receiver) -> Result {
    let queue = &receiver.queue;
    write!(to, "  receiver {}, {}{}", able(enabled), receiver.sampler.state(), last_sample(&receiver.sampler))?;
    match queue.count {
        0 => to.write_str("; holds nothing")?,
        1..=4 => to.write_str("; holds")?,
        count => write!(to, "; holds {count}, which is unsound:")?,
    }
    let places = [&queue.first, &queue.second, &queue.third, &queue.waiting];
    for (place, character) in places.into_iter().enumerate().take(queue.count.into()) {
        to.write_str(if place == 3 { ", waiting " } else { " " })?;
        write_character(to, character)?;
    }
    write!(to, "; last read {:02x}", receiver.last)?;
    to.write_str(if receiver.overrun { "; overrun" } else { "" })?;
    to.write_str(if receiver.change { "; break change" } else { "" })?;
    writeln!(to)
}

fn last_sample(sampler: &Sampler) -> &'static str {
    match sampler.state() {
        SamplerState::Hunting if sampler.high => " after a high",
        _ => "",
    }
}

/// The byte and its marks.
fn write_character(to: &mut Formatter, character: &Character) -> Result {
    let Marks { broken, framing, parity } = character.marks;
    let mut marks = [(broken, "break"), (framing, "framing"), (parity, "parity")].into_iter().filter(|mark| mark.0);
    write!(to, "{:02x}", character.byte)?;
    marks.try_for_each(|(_, name)| write!(to, "+{name}"))
}

fn able(enabled: bool) -> &'static str {
    if enabled {
        "enabled"
    } else {
        "disabled"
    }
}

fn level(high: bool) -> &'static str {
    if high {
        "high"
    } else {
        "low"
    }
}

#[cfg(test)]
mod tests {
    use crate::bits::{acr, command, isr, mr1, mr2};
    use crate::saved::tests::wild;
    use crate::{Duart, Event, Register};

    const FRESH: &str = "\
MC68681, sound
IVR 0f, IMR 00, ISR 00
ACR 00: counter on IP2, rates 0; preload 0, count 0, stopped, output high
high pins ff (IP0, IP1, IP2, IP3, IP4, IP5, RxDA, RxDB), changed 00
output bits 00, OPCR 00
channel A, normal: MR1A 00, MR2A 00, pointer at MR1A, CSRA 00, SRA 00
  transmitter disabled, idle; holds nothing; level high
  receiver disabled, hunting; holds nothing; last read 00
channel B, normal: MR1B 00, MR2B 00, pointer at MR1B, CSRB 00, SRB 00
  transmitter disabled, idle; holds nothing; level high
  receiver disabled, hunting; holds nothing; last read 00
";

    #[test]
    fn a_fresh_chip() {
        assert_eq!(Duart::fresh().to_string(), FRESH);
    }

    /// B in local loopback at 1X, the transmitter's clock on IP5: what is being sent, what is held, the timer.
    #[test]
    fn a_chip_at_work() {
        let mut chip = Duart::fresh();
        for event in [
            Event::write(Register::MRB, mr1::NO_PARITY | mr1::DATA_BITS_8),
            Event::write(Register::MRB, mr2::LOCAL_LOOPBACK | mr2::ONE_STOP_BIT),
            Event::write(Register::CSRB, 0xff),
            Event::write(Register::CRB, command::ENABLE_TRANSMITTER | command::ENABLE_RECEIVER),
            Event::write(Register::ACR, acr::TIMER_TICKS_16),
            Event::write(Register::IMR, isr::RX_B | isr::COUNTER),
            Event::write(Register::CRA, command::ENABLE_TRANSMITTER),
        ] {
            assert!(chip.step(event).is_ok());
        }
        for place in 0..29 {
            assert!(chip.step(Event::Pins(0xdf)).is_ok() && chip.step(Event::Pins(0xff)).is_ok());
            assert!(chip.step(Event::write(Register::TBB, 0x2a + place)).is_ok());
        }
        let text = chip.to_string();
        for line in [
            "IVR 0f, IMR 28 (counter, Rx B), ISR 21 (TxRDYA, Rx B)",
            "ACR 70: timer on ticks/16, rates 0; preload 0, count 0, running, output high",
            "channel A, normal: MR1A 00, MR2A 00, pointer at MR1A, CSRA 00, SRA 0c (TxRDY, TxEMT)",
            "channel B, local loopback: MR1B 13, MR2B 87, pointer at MR2B, CSRB ff, SRB 01 (RxRDY)",
            "  transmitter enabled, sending a character, 8 of 10 pulses; holds 46; level low",
            "  receiver enabled, a confirmed start under way; holds 2a 34; last read 00",
        ] {
            assert!(text.lines().any(|shown| shown == line), "no {line:?} in\n{text}");
        }
    }

    #[test]
    fn what_is_unsound_is_shown_too() {
        let mut device = *Duart::fresh().device();
        device.a.queue.count = 200;
        device.a.queue.second.byte = 0x17;
        device.a.queue.second.marks.framing = true;
        device.a.sampler.phase = 9;
        let text = device.to_string();
        assert!(text.starts_with("MC68681, unsound: every event is refused with 1\nIVR 0f, IMR 00\n"));
        let receiver = "phase 9, which is unsound; holds 200, which is unsound: 00 17+framing 00, waiting 00; last";
        assert!(text.contains(receiver), "{text}");
    }

    #[test]
    fn any_device_can_be_shown() {
        for seed in 0..200 {
            let text = wild(seed).to_string();
            assert!(text.lines().count() == 11 && text.lines().all(|line| line.len() < 240), "{text}");
        }
    }
}
