//! Readings on registers, ports, interrupts and refusals.

use super::board::*;
use crate::Event;

/// The table of numbers, by an event each on a fresh chip.
#[test]
fn numbers() {
    for (event, number) in [
        (Event::ChipReset, 0),
        (Event::Read(15), 0),
        (Event::Read(16), 2),
        (Event::Read(255), 2),
        (Event::Write(16, 0), 2),
        (Event::Read(2), 3),
        (Event::Read(10), 3),
        (Event::Write(2, 0x0C), 4),
        (Event::Write(10, 0x03), 4),
        (Event::Write(10, 0xFA), 0),
        (Event::Write(0, 0x80), 5),
        (Event::Write(8, 0x18), 5),
        (Event::Write(0, 0x77), 0),
        (Event::Write(13, 0x01), 5),
        (Event::Write(13, 0x02), 5),
        (Event::Write(13, 0x08), 5),
        (Event::Write(13, 0x0C), 5),
        (Event::Write(13, 0xF4), 0),
        (Event::Acknowledge, 6),
        (Event::Pins(0), 0),
        (Event::Tick, 0),
    ] {
        let seen = Board::fresh().give(event);
        assert_eq!((seen.number, seen.data), (number, 0), "{event:?}");
        assert_eq!(
            (seen.irq, seen.txda, seen.txdb, seen.op),
            (false, true, true, 255)
        );
    }
}

/// IP3-IP0 whose level differs from that before this event; one event, one comparison.
#[test]
fn change_flags() {
    let mut board = Board::fresh();
    board.low(IP0 | IP4 | RXDA);
    board.high(IP0);
    assert_eq!(board.read(4), 0x1F);
    assert_eq!(board.read(4), 0x0F, "the read clears the flags");
    board.low(IP1 | IP3);
    board.give(Event::Pins(IP1 | IP5));
    assert_eq!(board.read(4), 0xF2);
}

/// Input port bits 7, 6 read 1.
#[test]
fn input_port() {
    let mut board = Board::fresh();
    board.give(Event::Pins(0x15));
    assert_eq!(board.read(13), 0xD5);
    board.give(Event::Pins(0xC0));
    assert_eq!(board.read(13), 0xC0);
}

/// 5 depends on the pointer of that channel; a refused write leaves the pointer at MR1.
#[test]
fn pointer() {
    let mut board = Board::fresh();
    board.write(0, 0x13);
    assert_eq!(board.give(Event::Write(0, 0x20)).number, 5, "MR2 bit 5");
    assert_eq!(board.give(Event::Write(8, 0x80)).number, 5);
    board.write(8, 0x20);
    board.write(8, 0x0F);
    board.write(10, POINTER_TO_MR1);
    assert_eq!([board.read(8), board.read(8)], [0x20, 0x0F]);
    assert_eq!(board.read(0), 0);
}

/// 4 refuses the whole command; bit 7 is ignored.
#[test]
fn commands() {
    let mut board = Board::fresh();
    board.write(0, 0x13);
    assert_eq!(board.give(Event::Write(2, 0x1C)).number, 4);
    assert_eq!(board.read(0), 0, "still at MR2");
    board.command(0x90);
    assert_eq!(board.read(0), 0x13);
}

/// ISR bit 7 goes by flags and ACR as they stand; only the IPCR read clears flags.
#[test]
fn input_change() {
    let mut board = Board::fresh();
    board.write(5, 0x80);
    assert!(!board.low(IP2).irq);
    assert!(!board.write(4, 0x0B).irq);
    assert!(board.write(4, 0x04).irq);
    assert_eq!(board.isr(), 0x80);
    assert!(!board.write(4, 0x00).irq);
    assert!(board.write(4, 0x0F).irq);
    board.read(13);
    assert!(board.lines().irq);
    board.read(4);
    assert!(!board.lines().irq);
}

/// An accepted acknowledge reads IVR and clears nothing.
#[test]
fn acknowledge() {
    let mut board = Board::fresh();
    board.write(12, 0x42);
    board.write(5, 0x01);
    assert_eq!(board.give(Event::Acknowledge).number, 6);
    assert!(board.command(ENABLE_TRANSMITTER).irq);
    for _ in 0..2 {
        let seen = board.give(Event::Acknowledge);
        assert_eq!((seen.number, seen.data, seen.irq), (0, 0x42, true));
    }
    assert_eq!(board.isr(), 0x01);
}

/// A chip reset keeps levels and clears the flags; the next pin event compares with those levels.
#[test]
fn chip_reset() {
    let mut board = Board::on_pins(PINS_1X, ENABLE_TRANSMITTER | ENABLE_RECEIVER);
    board.receive_bytes(&[7]);
    board.read(3);
    board.write(3, 0);
    board.low(IP0);
    board.send_pulse();
    board.write(12, 1);
    board.write(14, 255);
    board.preload(500);
    board.start_counter();
    let seen = board.give(Event::ChipReset);
    assert_eq!((seen.txda, seen.op), (true, 255));
    assert_eq!(board.read(4), 0x06, "levels kept, no flags");
    assert_eq!([1, 5, 6, 7, 12].map(|n| board.read(n)), [0, 0, 0, 0, 15]);
    assert_eq!([board.read(3), board.read(0), board.read(0)], [0, 0, 0]);
    board.high(IP0);
    assert_eq!(board.read(4), 0x17);
}

/// "ISR bits 7-0: input change, break change B, Rx B, TxRDYB, counter, break change A, Rx A, TxRDYA."
#[test]
fn isr_bits_and_op_pins() {
    let mut board = Board::on_pins(PINS_1X, ENABLE_RECEIVER);
    board.write(13, 0xF0);
    assert_eq!((board.isr(), board.lines().op), (0x00, 0xFF));
    board.receive_bytes(&[1]);
    assert_eq!((board.isr(), board.lines().op), (0x02, 0xEF));
    board.command(ENABLE_TRANSMITTER);
    assert_eq!((board.isr(), board.lines().op), (0x03, 0xAF));
    board.receive(1, "1 0 00000000 0");
    assert_eq!((board.isr(), board.lines().op), (0x07, 0xAF));
    board.write(10, ENABLE_TRANSMITTER);
    assert_eq!((board.isr(), board.lines().op), (0x17, 0x2F));
    board.write(14, 0xF0);
    assert_eq!(board.lines().op, 0x2F, "the bits beneath");
    board.write(13, 0x00);
    assert_eq!(board.lines().op, 0x0F);
}

/// "bit 6 FFULL instead of RxRDY for ISR", and channel B's bits.
#[test]
fn isr_ffull_of_b() {
    let mut board = Board::fresh();
    board.write(8, 0x53);
    board.write(9, PINS_1X);
    board.write(10, ENABLE_RECEIVER);
    for arrived in 1..=3 {
        for level in "1 0 11111111 1".chars().filter(|level| *level != ' ') {
            let rxdb = if level == '1' { RXDB } else { 0 };
            board.give(Event::Pins(RXDA | rxdb));
            board.give(Event::Pins(RXDA | rxdb | IP2));
        }
        assert_eq!(board.isr() & 0x20 != 0, arrived == 3);
        assert_eq!(board.read(9) & 1, 1);
    }
    board.write(13, 0x20);
    assert_eq!(board.lines().op, 0xDF);
    assert_eq!((board.read(11), board.isr()), (255, 0));
}

/// Data is 0 for every event that reads nothing.
#[test]
fn data_0() {
    let mut board = Board::fresh();
    for event in [
        Event::Write(12, 9),
        Event::Pins(3),
        Event::Tick,
        Event::ChipReset,
    ] {
        assert_eq!(board.give(event).data, 0);
    }
}

/// "Refused: data 0, the state as given, lines as that state drives them"
#[test]
fn lines_of_a_refusal() {
    let mut board = Board::on_pins(PINS_1X, ENABLE_TRANSMITTER);
    board.write(3, 0);
    board.write(5, 0x01);
    board.write(14, 0x0F);
    let accepted = {
        board.send_pulse();
        board.lines()
    };
    let refused = board.give(Event::Read(2));
    assert_eq!((refused.number, refused.data), (3, 0));
    assert_eq!((refused.irq, refused.txda, refused.op), (true, false, 0xF0));
    assert_eq!(accepted.irq, refused.irq);
}
