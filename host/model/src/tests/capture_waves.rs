//! Order 7: "Order 6's dumps read back as their waves." For each wire and each tick up to the dump's last time, the level is
//! that of the line after the last event at the tick's time.

use super::board::*;
use super::captures::Reading;
use crate::capture::Line;
use crate::capture_text::Text;
use crate::dump::time_of;
use crate::{Chip, Event};

const NAMES: [&[u8]; 11] = [b"TxDA", b"TxDB", b"IRQ", b"OP0", b"OP1", b"OP2", b"OP3", b"OP4", b"OP5", b"OP6", b"OP7"];

fn dumped(chip: &Chip, events: &[Event]) -> Vec<u8> {
    let mut space = vec![0; 100_000];
    let dumped = chip.dump(events, &mut space);
    assert_eq!(dumped.number, 0);
    space.truncate(dumped.length);
    space
}

/// The levels of the eleven wires at each tick, time 0's first.
fn waves(mut chip: Chip, events: &[Event]) -> Vec<[bool; 11]> {
    let levels = |seen: crate::Seen| {
        let op = |bit: usize| seen.op >> bit & 1 == 1;
        [seen.txda, seen.txdb, !seen.irq, op(0), op(1), op(2), op(3), op(4), op(5), op(6), op(7)]
    };
    let mut waves = vec![levels(chip.step(Event::Read(255)))];
    for event in events {
        let seen = chip.step(*event);
        if *event == Event::Tick {
            waves.push(levels(seen));
        }
        *waves.last_mut().expect("there is time 0") = levels(seen);
    }
    waves
}

/// A chip with both channels at 38,400 bits a second, the timer on OP3, TxRDY on IRQ, OP6 and OP7.
fn busy() -> (Chip, Vec<Event>) {
    let mut events = Vec::new();
    for base in [0, 8] {
        let writes = [(0, 0x13), (0, 0x07), (1, 0xcc), (2, 0x05)];
        events.extend(writes.map(|(register, byte)| Event::Write(base + register, byte)));
    }
    let writes = [(7, 100), (4, 0x60), (13, 0xc4), (5, 0x11), (14, 0x05)];
    events.extend(writes.map(|(register, byte)| Event::Write(register, byte)));
    for byte in [0x00, 0x55, 0xff, 0x41, 0x80] {
        events.extend([Event::Write(3, byte), Event::Write(11, !byte), Event::Write(14, byte), Event::Tick]);
        events.extend([Event::Write(15, byte), Event::Read(14)]);
        events.extend([Event::Tick; 1_000]);
    }
    (Chip::fresh(), events)
}

#[test]
fn each_level_is_the_lines() {
    let (chip, events) = busy();
    let dump = dumped(&chip, &events);
    let text = Text::read(&dump).expect("every dump is inside the subset");
    assert!(text.times_are_later());
    let waves = waves(chip, &events);
    for (place, name) in NAMES.iter().enumerate() {
        let mut line = Line::before_time_0(&text, text.wire(name).expect("it is there"));
        let ticks = (0..waves.len()).take_while(|tick| text.reaches(time_of(*tick as u64)));
        let wrong = ticks.filter(|tick| line.level_at(time_of(*tick as u64)).is_high() != waves[*tick][place]);
        assert_eq!(wrong.count(), 0, "{name:?}");
    }
    assert!(!text.reaches(time_of(waves.len() as u64)));
}

/// Bytes that a transmitter sends at 9,600 bits a second, so many ticks after its clock's phase began, and an output bit that
/// moves when all is sent, or does not.
fn sends_after(ticks: usize, bytes: &[u8], moves: bool) -> Vec<u8> {
    let mut events: Vec<Event> = [(0, 0x13), (0, 0x07), (1, 0xbb), (2, ENABLE_TRANSMITTER)]
        .map(|(register, byte)| Event::Write(register, byte))
        .to_vec();
    events.extend(vec![Event::Tick; ticks]);
    for byte in bytes {
        events.push(Event::Write(3, *byte));
        events.extend([Event::Tick; 3_840]);
    }
    events.extend([Event::Tick; 1_000]);
    if moves {
        events.push(Event::Write(14, 0x01));
    }
    dumped(&Chip::fresh(), &events)
}

/// One pulse has passed.
fn sends(bytes: &[u8], moves: bool) -> Vec<u8> {
    sends_after(24, bytes, moves)
}

fn read(text: &[u8]) -> Vec<(u8, u8)> {
    let reading = Reading { names: [b"TxDA", b"OP7"], ..Reading::AT_9600 };
    reading.of(text).map(|[a, _]| a).expect("it is inside the subset")
}

#[test]
fn what_was_sent_is_read() {
    let bytes: Vec<u8> = (0..8).flat_map(|bit| [1 << bit, 0xff, 0x00, 0x55]).collect();
    let expected: Vec<(u8, u8)> = bytes.iter().map(|byte| (*byte, 0)).collect();
    assert_eq!(read(&sends(&bytes, true)), expected);
}

/// A character whose stop sample comes after the dump's last change is not read back: a 255 alone leaves no change after
/// its start bit.
#[test]
fn a_255_alone_is_not_read_back() {
    assert_eq!(read(&sends(&[255], false)), []);
    assert_eq!(read(&sends(&[255], true)), [(255, 0)], "a change on any of the eleven wires");
    assert_eq!(read(&sends(&[255, 255], false)), [(255, 0)]);
    assert_eq!(read(&sends(&[85], false)), [], "its stop bit is its last change, and the sample comes later");
}

/// A receiver just enabled must sample a high before a low counts: what starts at the very first pulse is not read as it is.
#[test]
fn what_starts_at_the_first_pulse() {
    assert_eq!(read(&sends_after(0, &[0], true)), []);
    assert_eq!(read(&sends_after(23, &[0], true)), []);
    assert_eq!(read(&sends_after(24, &[0], true)), [(0, 0)]);
}

/// The shortest dump, of 372 bytes, and one of a list that a refused event ends.
#[test]
fn each_dump_is_inside() {
    for events in [&[][..], &[Event::Read(2)], &[Event::Tick, Event::Write(14, 1), Event::Read(2), Event::Tick]] {
        assert_eq!(read(&dumped(&Chip::fresh(), events)), []);
    }
}
