//! Random devices: every event on every device is answered as document 01 says of sound and unsound states,
//! on states that no script reaches too.

use crate::drawing;
use crate::generator::Generator;
use crate::modes;
use crate::sound;
use crate::starts;
use duart::device::Receiver;
use duart::{Device, Duart, EventRecord, Seen};

/// "for 1, all lines 0"
const UNSOUND: Seen = Seen {
    number: 1,
    data: 0,
    fresh: false,
    irq: false,
    txda: false,
    txdb: false,
    op: 0,
};

/// What was tried.
#[derive(Default)]
pub struct Tally {
    pub sound: u64,
    pub unsound: u64,
    pub accepted: u64,
    pub refused: u64,
    /// Accepted reads of a receive buffer.
    pub fresh: u64,
    pub stale: u64,
    /// Accepted writes that change a mode.
    pub mode_changes: u64,
    /// Ticks and pin events with a channel in an echo mode whose transmitter is not idle: no script reaches that.
    pub odd_echoes: u64,
    /// Starts with the output low and ISR bit 3 not set, of a timer and of a counter: no script reaches the second.
    pub rises: u64,
    pub low_counter_starts: u64,
}

/// A device that was not treated as it should be.
pub struct Failure {
    pub device: Device,
    pub event: EventRecord,
    pub seen: Seen,
    pub after: Device,
    pub why: &'static str,
}

impl Failure {
    pub fn print(&self) {
        println!("a device is not treated as it should be: {}", self.why);
        println!("event:  {:?}\nanswer: {:?}", self.event, self.seen);
        println!("device: {:?}\nafter:  {:?}", self.device, self.after);
    }
}

pub fn run(count: u64, seed: u64) -> Result<Tally, Box<Failure>> {
    let mut draws = Generator::with_seed(seed);
    let mut tally = Tally::default();
    for _ in 0..count {
        let device = drawing::device(&mut draws);
        for kind in 0..=6 {
            let event = event_of_kind(&mut draws, kind);
            try_event(device, event, &mut tally)?;
        }
        if sound::is_sound(&device) {
            tally.sound += 1;
        } else {
            tally.unsound += 1;
        }
    }
    Ok(tally)
}

/// Kind 6 stands for all above 5. A chip reset's byte is 0, which a caller writes into what a kind does not use.
pub fn event_of_kind(draws: &mut Generator, kind: u8) -> EventRecord {
    let above_15 = draws.one_in(16);
    EventRecord {
        kind: if kind == 6 {
            6 + draws.small(250)
        } else {
            kind
        },
        reg: if above_15 {
            draws.byte()
        } else {
            draws.small(16)
        },
        byte: if kind == 0 { 0 } else { draws.byte() },
    }
}

fn try_event(device: Device, event: EventRecord, tally: &mut Tally) -> Result<(), Box<Failure>> {
    let mut chip = Duart::from_device(device);
    let said_sound = chip.is_sound();
    let seen = chip.step_record(event);
    let fault = if said_sound != sound::is_sound(&device) {
        Some("docs/SOUND.md and is_sound do not agree on it")
    } else if said_sound {
        fault_when_sound(&device, event, seen, &chip)
    } else {
        fault_when_unsound(&device, seen, &chip)
    };
    tally.accepted += u64::from(seen.number == 0);
    tally.refused += u64::from(seen.number != 0);
    let read = seen.number == 0 && buffer_read(&device, event).is_some();
    tally.fresh += u64::from(read && seen.fresh);
    tally.stale += u64::from(read && !seen.fresh);
    tally.mode_changes += u64::from(seen.number == 0 && modes::mode_changed(&device, event).is_some());
    tally.odd_echoes += u64::from(seen.number == 0 && is_odd_echo(&device, event));
    tally.rises += u64::from(seen.number == 0 && starts::rises(&device, event));
    tally.low_counter_starts += u64::from(seen.number == 0 && starts::is_low_counter_start(&device, event));
    match fault {
        None => Ok(()),
        Some(why) => Err(Box::new(Failure {
            device,
            event,
            seen,
            after: *chip.device(),
            why,
        })),
    }
}

fn fault_when_unsound(device: &Device, seen: Seen, chip: &Duart) -> Option<&'static str> {
    if seen != UNSOUND {
        Some("it is unsound, and the answer is not 1, stale, with data and all lines 0")
    } else if chip.device() != device {
        Some("it is unsound, and it was altered")
    } else {
        None
    }
}

fn fault_when_sound(
    device: &Device,
    event: EventRecord,
    seen: Seen,
    chip: &Duart,
) -> Option<&'static str> {
    let refused = seen.number != 0;
    if seen.number != number(device, event, seen.irq) {
        Some("it is sound, and the number is not that of the table")
    } else if refused && seen.data != 0 {
        Some("the event is refused, and the data are not 0")
    } else if refused && chip.device() != device {
        Some("the event is refused, and the device was altered")
    } else if refused && lines(seen) != lines_at_rest(device) {
        Some("the event is refused, and the lines are not those of the device")
    } else if !chip.is_sound() || !sound::is_sound(chip.device()) {
        Some("it was sound, and the new state is not")
    } else {
        fault_of_fresh(device, event, seen, chip)
            .or_else(|| modes::fault(device, event, seen, chip.device()))
            .or_else(|| starts::fault(device, event, chip.device()))
    }
}

/// A tick or a pin event, and a frame, a break or the high bit after it in an echo mode.
fn is_odd_echo(device: &Device, event: EventRecord) -> bool {
    let sides = [&device.front.a, &device.front.b];
    let odd = sides.iter().any(|side| modes::echoes(side) && side.transmitter.phase != 0);
    matches!(event.kind, 4 | 5) && odd
}

/// The receiver whose buffer an event reads, if it does.
fn buffer_read(device: &Device, event: EventRecord) -> Option<&Receiver> {
    match (event.kind, event.reg) {
        (1, 3) => Some(&device.a),
        (1, 11) => Some(&device.b),
        _ => None,
    }
}

/// Order 1: "fresh exactly when RxRDY was set before it", and "a refused read or any other event is stale"; document 01:
/// "reading an empty queue repeats the last byte read (0 after a chip reset) and takes nothing."
fn fault_of_fresh(
    device: &Device,
    event: EventRecord,
    seen: Seen,
    chip: &Duart,
) -> Option<&'static str> {
    match buffer_read(device, event) {
        None => seen
            .fresh
            .then_some("the event reads no receive buffer, and it is fresh"),
        Some(receiver) if seen.fresh != (receiver.queue.count > 0) => {
            Some("fresh is not what RxRDY was before the read")
        }
        Some(receiver) if !seen.fresh && seen.data != receiver.last => {
            Some("the read is stale, and the byte is not the last one")
        }
        Some(_) if !seen.fresh && chip.device() != device => {
            Some("the read is stale, and the device was altered")
        }
        Some(_) => None,
    }
}

/// The table of document 01 for a sound device. An acknowledge changes nothing, so the IRQ of its answer is
/// the IRQ that it found.
fn number(device: &Device, event: EventRecord, irq: bool) -> u8 {
    let EventRecord { kind, reg, byte } = event;
    match (kind, reg) {
        (6.., _) | (1 | 2, 16..) => 2,
        (1, 2 | 10) => 3,
        (2, 2 | 10) if byte & 3 == 3 || byte & 12 == 12 => 4,
        (2, _) if !is_modelled(device, reg, byte) => 5,
        (3, _) if !irq => 6,
        _ => 0,
    }
}

fn is_modelled(device: &Device, register: u8, byte: u8) -> bool {
    let (side, mode) = match register {
        0 => (&device.front.a, true),
        8 => (&device.front.b, true),
        _ => (&device.front.a, false),
    };
    match (mode, side.moved) {
        (true, false) => sound::is_accepted_mr1(byte),
        (true, true) => sound::is_accepted_mr2(byte),
        _ => register != 13 || sound::is_accepted_opcr(byte),
    }
}

fn lines(seen: Seen) -> (bool, bool, bool, u8) {
    (seen.irq, seen.txda, seen.txdb, seen.op)
}

/// The lines as the device drives them, from a read that is always refused.
fn lines_at_rest(device: &Device) -> (bool, bool, bool, u8) {
    lines(Duart::from_device(*device).step_raw(duart::Event::Read(255)))
}

#[cfg(test)]
mod tests {
    use super::{number, run};
    use duart::{Duart, Event};

    #[test]
    fn the_table_holds_on_a_fresh_device() {
        let device = *Duart::fresh().device();
        let number = |event: Event| number(&device, event.into(), false);
        assert_eq!(number(Event::Write(16, 0)), 2);
        assert_eq!(number(Event::Read(10)), 3);
        assert_eq!(number(Event::Write(2, 0x13)), 4);
        assert_eq!(number(Event::Write(0, 0x80)), 5);
        assert_eq!(number(Event::Acknowledge), 6);
        assert_eq!(number(Event::Tick), 0);
    }

    #[test]
    fn devices_of_each_sort_are_drawn() {
        let tally = run(1000, 1).unwrap_or_else(|failure| panic!("{}", failure.why));
        assert!(tally.sound > 200 && tally.unsound > 200);
        assert!(tally.accepted > 0 && tally.refused > 0);
        assert!(tally.fresh > 0 && tally.stale > 0);
        assert!(tally.mode_changes > 0 && tally.odd_echoes > 0);
        assert!(tally.rises > 0 && tally.low_counter_starts > 0);
    }
}
