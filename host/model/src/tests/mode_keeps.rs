//! Order 2: what is no mode change, and what a mode change leaves. Sentences in double quotes are the order's; the rest
//! is how it is read.

use super::board::*;
use crate::{frame, Event};

const BOTH: u8 = ENABLE_RECEIVER | ENABLE_TRANSMITTER;

/// A character half sent (its low bits) and another half received, in normal mode.
fn half_way() -> Board {
    let mut board = Board::in_mode(NORMAL, PINS_1X, BOTH);
    board.write(3, 0);
    board.sends(5);
    board.receive(1, "1 0 1010");
    board
}

fn goes_on(board: &mut Board) {
    assert_eq!(board.sends(5), "00001");
    board.receive(1, "1100 1");
    assert_eq!((board.sr() & 0xF3, board.read(3)), (RXRDY, 0x35));
}

/// The same two bits again, whatever else the byte changes, are none
#[test]
fn the_same_bits_are_no_change() {
    for mr2 in [0x07, 0x00, 0x0F, 0x17] {
        let mut board = half_way();
        assert!(!board.to(mr2).txda);
        goes_on(&mut board);
    }
}

/// And so in the other modes.
#[test]
fn the_same_bits_are_no_change_in_a_loop() {
    for mode in [0x40, 0xC0] {
        let mut board = Board::in_mode(mode, PINS_1X, ENABLE_RECEIVER);
        board.receive(1, "1 0");
        assert!(!board.to(mode | 0x1F).txda);
    }
    let mut board = Board::in_mode(LOCAL, PINS_1X, BOTH);
    board.send_pulse();
    board.write(3, 0x35);
    board.sends(5);
    board.to(0x80);
    board.sends(5);
    assert_eq!(board.read(3), 0x35);
}

/// A refused write (bit 5) changes nothing.
#[test]
fn a_refused_write_is_no_change() {
    for mr2 in [0x20, 0x60, 0xA7, 0xE7] {
        let mut board = half_way();
        let seen = board.give(Event::Write(0, mr2));
        assert_eq!((seen.number, seen.txda), (5, false));
        assert_eq!(board.read(0), NORMAL);
        goes_on(&mut board);
    }
}

/// A write at MR1 is none. MR1 bit 6 is another thing.
#[test]
fn a_write_at_mr1_is_no_change() {
    let mut board = half_way();
    board.command(POINTER_TO_MR1);
    assert!(!board.write(0, 0x53).txda);
    goes_on(&mut board);
    let mut board = Board::in_mode(ECHO, PINS_1X, ENABLE_RECEIVER);
    board.receive(1, "10");
    board.command(POINTER_TO_MR1);
    assert!(!board.write(0, 0x13).txda);
    assert_eq!(board.read(0), ECHO);
}

/// "Refusals: 5 no longer covers MR2 bits 7-6."
#[test]
fn every_mode_is_accepted_and_read_back() {
    for mr2 in 0..=255 {
        let mut board = Board::fresh();
        board.write(0, 0x13);
        board.write(8, 0x13);
        let number = if mr2 & 0x20 == 0 { 0 } else { 5 };
        assert_eq!(board.give(Event::Write(0, mr2)).number, number);
        assert_eq!(board.give(Event::Write(8, mr2)).number, number);
        let kept = if number == 0 { mr2 } else { 0 };
        assert_eq!((board.read(0), board.read(8)), (kept, kept));
    }
}

/// Frame request: MR2 bits 7-6 are allowed and unused (as bit 4 is); bit 5 is still 5.
#[test]
fn the_frame_request_does_not_look_at_the_mode() {
    let levels = |mr2| {
        let mut space = [7; 192];
        (frame(0x13, mr2, 0x35, &mut space), space)
    };
    for mode in [0x40, 0x80, 0xC0] {
        assert_eq!(levels(mode | 0x17), levels(0x07));
        let (answer, space) = levels(mode | 0x20);
        assert_eq!((answer.number, answer.length, space), (5, 0, [7; 192]));
    }
}

/// Enables, holding place and an asked break, queue, waiting place, marks, ..., overrun, break change, last byte,
/// pointer, CSR
#[test]
fn what_it_leaves_of_a_channel() {
    for to in [ECHO, LOCAL, REMOTE] {
        let mut board = Board::in_mode(NORMAL, PINS_1X, BOTH);
        board.receive_bytes(&[9]);
        assert_eq!(board.read(3), 9);
        board.receive(1, "1 0 00000000 0 1");
        board.receive_bytes(&[2, 3, 4, 5]);
        board.write(3, 85);
        assert_eq!(board.sr() & 0xF3, BREAK | OVERRUN | FFULL | RXRDY);
        board.to(to);
        assert_eq!(board.sr(), BREAK | OVERRUN | FFULL | RXRDY);
        assert!(board.break_change());
        assert_eq!(board.read(0), to, "the pointer is at MR2");
        board.to(NORMAL);
        assert_eq!(board.sends(10), "0101010101");
        assert_eq!(board.sr() & 12, 4, "still enabled");
        assert_eq!([(); 5].map(|()| board.read(3)), [0, 2, 3, 5, 5]);
        board.receive_bytes(&[6]);
        assert_eq!(board.read(3), 6);
        board.to(to);
        assert_eq!(board.read(3), 6, "the last byte again");
    }
}

/// "sums": the block's, shown by MR1 bit 5.
#[test]
fn what_it_leaves_of_the_block() {
    let mut board = Board::on_pins(PINS_1X, ENABLE_RECEIVER);
    board.mode(0x33, NORMAL);
    board.receive(1, "1 0 10000000 0 1");
    board.read(3);
    board.to(LOCAL);
    assert_eq!(board.sr(), FRAMING);
    board.to(NORMAL);
    assert_eq!(board.sr(), FRAMING);
}

/// All phases; The receiver's own divider runs on in local loopback, A mode change restarts no phase.
#[test]
fn restarts_no_phase() {
    for between in [NORMAL, LOCAL, ECHO, REMOTE] {
        let mut board = Board::in_mode(NORMAL, 0xBB, ENABLE_RECEIVER);
        board.low(RXDA);
        board.ticks(5);
        board.to(between);
        board.ticks(36);
        board.to(if between == ECHO { REMOTE } else { ECHO });
        assert_eq!(board.ticks_until(30, |board| !board.txda()), Some(7));

        let mut board = Board::in_mode(NORMAL, 0xBB, BOTH);
        board.ticks(5);
        board.to(between);
        board.ticks(36);
        board.to(if between == NORMAL { LOCAL } else { NORMAL });
        board.to(NORMAL);
        board.write(3, 0);
        assert_eq!(board.ticks_until(30, |board| !board.txda()), Some(7));
    }
}

/// The sixteenths of the 1X clock, the counter/timer
#[test]
fn leaves_the_counter_and_the_sixteenths() {
    for to in [ECHO, LOCAL, REMOTE] {
        let mut board = Board::in_mode(NORMAL, PINS_16X, 0);
        board.preload(2);
        board.write(4, 0x10);
        board.start_counter();
        board.sends(21);
        assert_eq!(board.count(), 1);
        board.to(to);
        assert_eq!(board.count(), 1);
        board.sends(10);
        assert!(!board.isr_bit_3());
        board.sends(1);
        assert!(board.isr_bit_3());
    }
}

/// Format, CTS and stop code written in the same byte as the mode are taken as ever: format at the next start, CTS as
/// it stands.
#[test]
fn stop_code_and_cts_in_the_same_byte() {
    for (mr2, pulses) in [(0x87, 10), (0x8F, 11)] {
        let mut board = Board::in_mode(NORMAL, PINS_1X, BOTH);
        board.write(3, 0);
        board.to(mr2);
        assert_eq!(board.send_pulses_until_empty(), Some(pulses + 1));
    }
    let mut board = Board::in_mode(NORMAL, PINS_1X, BOTH);
    board.write(3, 0);
    board.to(LOCAL | 0x10);
    assert_eq!(board.send_pulses_until_empty(), None, "CTS is high");
    board.low(IP0);
    assert_eq!(board.send_pulses_until_empty(), Some(11));
}
