//! Order 2: local loopback. Sentences in double quotes are the order's; the rest is how it is read.

use super::board::*;

const BOTH: u8 = ENABLE_RECEIVER | ENABLE_TRANSMITTER;

/// Local loopback with both sides enabled and one pulse gone, so that the receiver has its high.
fn looped(csr: u8) -> Board {
    let mut board = Board::in_mode(LOCAL, csr, BOTH);
    board.send_pulse();
    board
}

fn rxrdy(board: &mut Board) -> bool {
    board.sr() & RXRDY != 0
}

/// The pulses of IP3 until a character has arrived.
fn pulses_until_arrival(board: &mut Board) -> Option<u32> {
    board.times_until(
        200,
        |board| {
            board.send_pulse();
        },
        rxrdy,
    )
}

/// "the receiver takes the transmitter's level", "TxD stays high, RxD is ignored"
#[test]
fn takes_the_transmitters_level() {
    for (csr, byte) in [
        (PINS_16X, 0),
        (PINS_16X, 170),
        (PINS_1X, 85),
        (PINS_1X, 255),
    ] {
        let mut board = looped(csr);
        board.low(RXDA);
        board.write(3, byte);
        assert!(!board.sends(200).contains('0'), "TxD stays high");
        assert_eq!((board.sr(), board.read(3)), (0x0D, byte));
    }
}

/// Pulse, source, phase and 16X or 1X are all the transmitter's, CSR bits 3-0; bits 7-4 have no part
#[test]
fn takes_the_transmitters_clock() {
    let at_16x = [0x0E, 0xFE, 0xDE, 0xEE, 0xBE].map(|csr| (csr, 153));
    let at_1x = [0x0F, 0xEF, 0xDF, 0xFF, 0xBF].map(|csr| (csr, 10));
    for (csr, pulses) in at_16x.into_iter().chain(at_1x) {
        let mut board = looped(csr);
        board.write(3, 0x35);
        assert_eq!(pulses_until_arrival(&mut board), Some(pulses), "{csr:x}");
        assert_eq!(board.read(3), 0x35);
    }
}

/// On ticks: source and phase are the transmitter's.
#[test]
fn takes_the_transmitters_divider() {
    for csr in [0xEB, 0xFB, 0xCB, 0x0B, 0xBB] {
        let mut board = Board::in_mode(LOCAL, csr, BOTH);
        board.ticks(24);
        board.write(3, 0x35);
        assert_eq!(board.ticks_until(4000, rxrdy), Some(153 * 24), "{csr:x}");
        assert_eq!(board.read(3), 0x35);
    }
}

/// On the transmitter's own pulse, the falling edge (A IP3, B IP5); IP4 (IP2 for B) then gives the receiver nothing
#[test]
fn samples_on_the_falling_edge() {
    let mut board = looped(PINS_1X);
    board.write(3, 0);
    board.sends(9);
    board.receive_pulses(20, false);
    board.receive_pulses(20, true);
    board.high(IP3);
    assert_eq!(board.sr() & RXRDY, 0, "the rising edge");
    board.low(IP3);
    assert_eq!((board.sr() & 0xF3, board.read(3)), (RXRDY, 0));
    // Without a pulse of the transmitter there is no high, however often IP4 rises.
    let mut board = Board::in_mode(LOCAL, PINS_1X, BOTH);
    board.receive_pulses(20, true);
    board.write(3, 0x55);
    board.sends(1);
    board.receive_byte(9);
    assert_eq!(board.sr() & RXRDY, 0);
}

/// The one just put out by the same pulse, even the shortest stop (9 sixteenths) is sampled high, on its last
#[test]
fn samples_what_the_same_pulse_puts_out() {
    for (csr, mr2, arrival) in [
        (PINS_16X, 0x80, 153),
        (PINS_16X, 0x87, 153),
        (PINS_1X, 0x87, 10),
    ] {
        let mut board = Board::in_mode(mr2, csr, BOTH);
        board.send_pulse();
        board.write(3, 0);
        assert_eq!(pulses_until_arrival(&mut board), Some(arrival));
        assert_eq!((board.sr() & 0xF1, board.read(3)), (RXRDY, 0));
    }
}

/// Frames with the shortest stop, one right after the other.
#[test]
fn the_shortest_stop_is_enough() {
    let mut board = Board::in_mode(0x80, PINS_16X, BOTH);
    board.send_pulse();
    for byte in [1, 0, 255] {
        board.write(3, byte);
        board.sends(153);
    }
    assert_eq!([(); 3].map(|()| board.read(3)), [1, 0, 255]);
}

/// "CTS still counts"
#[test]
fn cts_still_counts() {
    let mut board = Board::in_mode(LOCAL | 0x10, PINS_1X, BOTH);
    board.write(3, 9);
    board.sends(30);
    assert_eq!(board.sr() & 0x0D, 0, "the byte is held");
    board.low(IP0);
    board.sends(1);
    board.high(IP0);
    assert_eq!(pulses_until_arrival(&mut board), Some(9));
    assert_eq!(board.read(3), 9);
}

/// The enable works as in normal mode.
#[test]
fn a_disabled_receiver_does_not_work() {
    let mut board = Board::in_mode(LOCAL, PINS_1X, ENABLE_TRANSMITTER);
    board.send_pulse();
    board.write(3, 9);
    board.sends(30);
    assert_eq!((board.sr(), board.read(3)), (0x0C, 0));
    board.command(ENABLE_RECEIVER);
    board.send_pulse();
    board.write(3, 9);
    board.sends(10);
    board.command(DISABLE_RECEIVER);
    board.write(3, 8);
    board.sends(30);
    assert_eq!((board.read(3), board.sr()), (9, 0x0C));
}

/// If the holding place is full when the mode changes or when the receiver is enabled, the character starts on the
/// very next pulse and its start bit is no start for the receiver. Let one pulse pass.
#[test]
fn a_byte_written_before_a_pulse_is_not_received() {
    let mut board = Board::in_mode(LOCAL, PINS_1X, BOTH);
    board.write(3, 0xFE);
    board.sends(30);
    assert_eq!(board.sr() & RXRDY, 0);
    let mut board = looped(PINS_1X);
    board.write(3, 0xFE);
    board.sends(30);
    assert_eq!(board.read(3), 0xFE);
}

/// "Case 7 in local loopback, transmitter enabled, gives the same reads and the same SR bits 4, 1 and 0." The next
/// start is the confirmed one, on the ninth pulse of 5's start bit.
#[test]
fn case_7_in_local_loopback() {
    let mut board = looped(PINS_16X);
    for byte in [1, 2, 3, 4] {
        board.write(3, byte);
        board.sends(160);
    }
    assert_eq!(board.sr() & 0x13, 3);
    board.write(3, 5);
    board.sends(8);
    assert_eq!(board.sr() & 0x13, 3);
    board.sends(1);
    assert_eq!(board.sr() & 0x13, 19);
    board.sends(151);
    assert_eq!([(); 4].map(|()| board.read(3)), [1, 2, 3, 5]);
    assert_eq!(board.sr() & 0x13, 16);
}

/// In local loopback the transmitter works as in normal mode (TxRDY, TxEMT, ...)
#[test]
fn the_transmitter_works_as_in_normal_mode() {
    for mode in [NORMAL, LOCAL] {
        let mut board = Board::in_mode(mode, PINS_16X, ENABLE_TRANSMITTER);
        assert_eq!((board.sr() & 12, board.isr() & 1), (12, 1));
        board.write(3, 0);
        assert_eq!((board.sr() & 12, board.isr() & 1), (0, 0));
        board.send_pulse();
        assert_eq!((board.sr() & 12, board.isr() & 1), (4, 1));
        assert_eq!(board.send_pulses_until_empty(), Some(160));
    }
}

/// With the transmitter disabled its clock still pulses the receiver, which samples highs
#[test]
fn a_disabled_transmitter_still_pulses_the_receiver() {
    let mut board = Board::in_mode(LOCAL, PINS_1X, ENABLE_RECEIVER);
    board.low(RXDA);
    board.send_pulse();
    board.command(ENABLE_TRANSMITTER);
    board.write(3, 77);
    board.sends(10);
    assert_eq!(board.read(3), 77);
}

/// A sent break is received: a zero with the break mark, break change, and again after the stop and 8 (1X: one) high
/// pulses, 8 of the 16 that are owed. a break's end goes by bits 3-0.
#[test]
fn a_sent_break_is_received() {
    for (csr, pulses, highs, owed) in [
        (0xEE, 153, 8, 16),
        (0xFE, 153, 8, 16),
        (0xFF, 10, 1, 1),
        (0xEF, 10, 1, 1),
    ] {
        let mut board = looped(csr);
        board.command(START_BREAK);
        assert_eq!(pulses_until_arrival(&mut board), Some(pulses));
        assert!(board.break_change() && board.txda());
        assert_eq!((board.sr() & 0xF1, board.read(3)), (BREAK | RXRDY, 0));
        board.command(CLEAR_BREAK_CHANGE);
        board.sends(400);
        assert!(!board.break_change());
        board.command(STOP_BREAK);
        board.write(3, 0x5A);
        board.sends(highs - 1);
        assert!(!board.break_change());
        board.send_pulse();
        assert!(board.break_change());
        assert_eq!(
            pulses_until_arrival(&mut board),
            Some(owed - highs + pulses)
        );
        assert_eq!(board.read(3), 0x5A);
    }
}

/// Reset transmitter raises the looped level at once.
#[test]
fn reset_transmitter_raises_the_looped_level() {
    let mut board = looped(PINS_1X);
    board.write(3, 0);
    board.sends(5);
    board.command(RESET_TRANSMITTER);
    board.sends(5);
    assert_eq!((board.sr(), board.read(3)), (RXRDY, 0xF0));
    let mut board = looped(PINS_16X);
    board.write(3, 0);
    board.sends(8);
    board.command(RESET_TRANSMITTER);
    board.sends(200);
    assert_eq!(board.sr(), 0, "high at p+8");
}

/// IP3 falling and IP4 rising in one pins event are still one sample in local loopback (the transmitter's)
#[test]
fn two_edges_are_one_sample() {
    let mut board = looped(PINS_1X);
    board.write(3, 0x35);
    for _ in 0..10 {
        board.low(IP4);
        board.high(IP3);
        board.give(crate::Event::Pins(0x37));
    }
    assert_eq!((board.sr() & 0xF3, board.read(3)), (RXRDY, 0x35));
}
