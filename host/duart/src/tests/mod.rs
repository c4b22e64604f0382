//! The calls of one event, and of a capture.

mod bits;
mod capturing;
mod refusing;

use crate::{mode, Duart, Event, Seen};

/// IP4, whose rising edges are the receiver's 1X clock, IP3, whose falling edges are the transmitter's, and RxDA.
const IP4: u8 = 0x10;
const IP3: u8 = 0x08;
const RXDA: u8 = 0x40;

fn receiving() -> Duart {
    let mut chip = Duart::fresh();
    for (register, byte) in [(0, 0x13), (0, 0x07), (1, 0xff), (2, 0x01)] {
        assert!(chip.step(Event::Write(register, byte)).is_ok());
    }
    chip
}

fn step(chip: &mut Duart, event: Event) -> Seen {
    chip.step(event).unwrap_or_else(|refused| panic!("{event:?}: {refused}"))
}

/// A high, a start bit, the data lowest bit first, a stop bit.
fn send(chip: &mut Duart, byte: u8) {
    let levels = (u16::from(byte) << 2) | 0x401;
    for place in 0..11 {
        let rxda = if (levels >> place) & 1 == 1 { RXDA } else { 0 };
        step(chip, Event::Pins(rxda));
        step(chip, Event::Pins(rxda | IP4));
    }
}

fn read(chip: &mut Duart) -> (u8, bool) {
    let Seen { data, fresh, .. } = step(chip, Event::Read(3));
    (data, fresh)
}

#[test]
fn a_byte_is_fresh_once_and_an_equal_one_is_fresh_again() {
    let mut chip = receiving();
    send(&mut chip, 42);
    send(&mut chip, 42);
    let reads = [(); 3].map(|()| read(&mut chip));
    assert_eq!(reads, [(42, true), (42, true), (42, false)]);
}

#[test]
fn a_disabled_receiver_gives_fresh_bytes_and_a_reset_one_none() {
    let mut chip = receiving();
    send(&mut chip, 42);
    send(&mut chip, 43);
    step(&mut chip, Event::Write(2, 0x02));
    assert_eq!(read(&mut chip), (42, true));
    step(&mut chip, Event::Write(2, 0x20));
    assert_eq!(read(&mut chip), (42, false));
}

#[test]
fn a_stale_read_leaves_the_chip_as_it_was() {
    let mut chip = receiving();
    let before = chip.clone();
    assert_eq!(read(&mut chip), (0, false));
    assert_eq!(chip, before);
}

#[test]
fn a_status_read_and_a_refused_one_are_stale() {
    let mut chip = receiving();
    send(&mut chip, 42);
    assert!([1, 19, 11].into_iter().all(|register| !chip.step_raw(Event::Read(register)).fresh));
    assert_eq!(read(&mut chip), (42, true));
}

/// A byte is written and 11 pulses of the transmitter's clock pass, TxDA being high: what has come.
fn round(chip: &mut Duart, byte: u8) -> (u8, bool) {
    step(chip, Event::Write(3, byte));
    for _ in 0..11 {
        step(chip, Event::Pins(0xff));
        assert!(step(chip, Event::Pins(0xff & !IP3)).txda);
    }
    read(chip)
}

#[test]
fn a_byte_comes_round_in_local_loopback_once_a_pulse_has_passed() {
    let mut chip = receiving();
    for (register, byte) in [(0, mode::LOCAL_LOOPBACK), (2, 0x04)] {
        assert!(chip.step(Event::Write(register, byte)).is_ok());
    }
    assert_eq!(round(&mut chip, 0xff), (0, false), "no high before the start bit");
    assert_eq!(round(&mut chip, 0x55), (0x55, true));
}

#[test]
fn of_mr2_bit_5_alone_is_refused() {
    for mr2 in 0..=255 {
        let number = receiving().step_raw(Event::Write(0, mr2)).number;
        assert_eq!(number, if mr2 & 0x20 == 0 { 0 } else { 5 }, "MR2 {mr2}");
    }
}
