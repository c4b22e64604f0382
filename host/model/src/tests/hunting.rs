//! Readings on the receiver's samples: starts, stops and breaks.

use super::board::*;

const RECEIVING: u8 = ENABLE_RECEIVER;

/// Only the sample at p+8 decides; highs at p+1 to p+7 are not looked at.
#[test]
fn only_p_plus_8_decides() {
    let mut board = Board::on_pins(PINS_16X, RECEIVING);
    board.receive(1, "1 0 1111111 0");
    board.receive(16, "111111111");
    assert_eq!((board.sr(), board.read(3)), (RXRDY, 255));
}

/// At 1X a break waits for its end, one high; after the low stop of another character the next low
/// is a start.
#[test]
fn after_a_low_stop_at_1x() {
    let mut board = Board::on_pins(PINS_1X, RECEIVING);
    board.receive(1, "1 0 00000000 0 0000000000000000000000");
    assert_eq!(
        (board.sr(), board.read(3), board.sr()),
        (BREAK | RXRDY, 0, 0)
    );
    board.command(CLEAR_BREAK_CHANGE);
    board.receive(1, "1");
    assert!(board.break_change());
    board.receive(1, "0 10000000 1");
    assert_eq!(board.read(3), 1);

    board.receive(1, "0 10000000 0 0 01000000 1");
    assert_eq!((board.sr(), board.read(3)), (FRAMING | RXRDY, 1));
    assert_eq!((board.sr(), board.read(3)), (RXRDY, 2));
}

/// After a 16X low stop 8 lows are counted though CSR is 1X; the 8th is p of a 1X character.
#[test]
fn low_stop_at_16x_then_1x() {
    let mut board = Board::on_pins(PINS_16X, RECEIVING);
    board.receive(16, "1 0 10000000");
    board.receive_pulses(9, false);
    assert_eq!(board.sr(), FRAMING | RXRDY, "the stop sample");
    board.read(3);
    board.write(1, PINS_1X);
    board.receive(1, "00000000 01000000");
    assert_eq!(board.sr(), 0);
    board.receive(1, "1");
    assert_eq!((board.sr(), board.read(3)), (RXRDY, 2));
}

/// After a 1X low stop with CSR now 16X the next low is p of a 16X character.
#[test]
fn low_stop_at_1x_then_16x() {
    let mut board = Board::on_pins(PINS_1X, RECEIVING);
    board.receive(1, "1 0 10000000 0");
    board.read(3);
    board.write(1, PINS_16X);
    board.receive(16, "0 01000000");
    board.receive_pulses(8, true);
    assert_eq!(board.sr(), 0);
    board.receive_pulse(true);
    assert_eq!((board.sr(), board.read(3)), (RXRDY, 2));
}

/// A break's end goes by CSR as it stands; the run of highs goes on over a CSR write.
#[test]
fn breaks_end_by_csr() {
    for (csr, highs_before, csr_then, highs_then) in [
        (PINS_16X, 0, PINS_16X, 8),
        (PINS_16X, 0, PINS_1X, 1),
        (PINS_16X, 3, PINS_1X, 1),
        (PINS_16X, 3, PINS_16X, 5),
        (PINS_1X, 0, PINS_1X, 1),
        (PINS_1X, 0, PINS_16X, 8),
    ] {
        let mut board = Board::on_pins(csr, RECEIVING);
        board.receive(1, "1");
        board.receive_pulses(200, false);
        board.command(CLEAR_BREAK_CHANGE);
        board.receive_pulses(highs_before, true);
        board.write(1, csr_then);
        assert!(!board.break_change());
        let highs = board.times_until(20, |board| board.receive_pulse(true), Board::break_change);
        assert_eq!(highs, Some(highs_then));
    }
}

/// "8 high pulses in a row": a low among them begins anew.
#[test]
fn highs_in_a_row() {
    let mut board = Board::on_pins(PINS_16X, RECEIVING);
    board.receive(1, "1");
    board.receive_pulses(200, false);
    board.command(CLEAR_BREAK_CHANGE);
    board.receive(1, "1111111 0 1111111");
    assert!(!board.break_change());
    board.receive(1, "1");
    assert!(board.break_change());
}

/// The format is taken at p, not at p+8, and a false start takes it anew at the next p.
#[test]
fn format_at_p() {
    let mut board = Board::on_pins(PINS_16X, RECEIVING);
    board.receive(1, "1 0");
    board.mode(0x10, 0);
    board.receive_pulses(15, false);
    board.receive(16, "11111111");
    assert_eq!(board.sr(), 0, "still 8 bits");
    board.receive(16, "1");
    assert_eq!(board.read(3), 255);

    board.receive(1, "0");
    board.mode(0x13, 0);
    board.receive(16, "1 0 11111111");
    assert_eq!(board.sr(), 0, "8 bits again");
}

/// One stop sample, whatever the stop code; the next low may come on the next pulse.
#[test]
fn one_stop_sample() {
    let mut board = Board::on_pins(PINS_16X, RECEIVING);
    board.mode(0x13, 15);
    board.receive(16, "1 0 10000000");
    board.receive_pulses(9, true);
    board.receive(16, "0 01000000 1");
    assert_eq!([board.read(3), board.read(3)], [1, 2]);
}

/// A low stop at s, s+1 to s+8 low: p = s+8, checked at s+16. A high among them is a seen high.
#[test]
fn low_stop_at_16x() {
    for (levels, arrives) in [
        ("00000000 00000000", true),
        ("00000000 00000001", false),
        ("00000000 11111110", true),
        ("00000001 00000000", false),
        ("00000001 00000000 0", true),
    ] {
        let mut board = Board::on_pins(PINS_16X, RECEIVING);
        board.receive(16, "1 0 10000000");
        board.receive_pulses(9, false);
        board.read(3);
        board.receive(1, levels);
        board.receive(16, "1111111111");
        assert_eq!(board.sr() & RXRDY != 0, arrives, "{levels}");
    }
}

/// After a false start the high at p+8 is a seen high.
#[test]
fn false_start() {
    let mut board = Board::on_pins(PINS_16X, RECEIVING);
    board.receive(1, "1 00000000 1 000000000");
    board.receive(16, "111111111");
    assert_eq!(board.sr(), RXRDY);
}

/// After a break's end the last high is a seen high.
#[test]
fn low_after_a_break() {
    let mut board = Board::on_pins(PINS_16X, RECEIVING);
    board.receive(16, "1 00000000000");
    board.read(3);
    board.receive(1, "11111111 000000000");
    board.receive(16, "111111111");
    assert_eq!((board.sr(), board.read(3)), (RXRDY, 255));
}

/// Data, parity and stop low are a break, whatever parity is right. With a high parity bit it is none.
#[test]
fn break_or_framing() {
    for (mr1, levels, marks) in [
        (0x03, "0 00000000 0 0", BREAK),
        (0x07, "0 00000000 0 0", BREAK),
        (0x0F, "0 00000000 0 0", BREAK),
        (0x03, "0 00000000 1 0", FRAMING | PARITY),
        (0x07, "0 00000000 1 0", FRAMING),
        (0x03, "0 00000000 0 1", 0),
        (0x07, "0 00000000 0 1", PARITY),
        (0x0F, "0 00000000 0 1", PARITY),
        (0x0B, "0 11111110 1 1", PARITY),
    ] {
        let mut board = Board::on_pins(PINS_1X, RECEIVING);
        board.mode(mr1, 0);
        board.receive(1, "1");
        board.receive(1, levels);
        assert_eq!(board.sr(), marks | RXRDY, "MR1 {mr1}: {levels}");
        assert_eq!(board.break_change(), marks == BREAK);
    }
}

/// A receiver just enabled must sample a high first, at 1X too.
#[test]
fn high_before_a_low() {
    for csr in [PINS_16X, PINS_1X] {
        let mut board = Board::on_pins(csr, RECEIVING);
        board.receive_pulses(400, false);
        assert_eq!((board.sr(), board.break_change()), (0, false));
    }
    let mut board = Board::on_pins(PINS_1X, RECEIVING);
    board.receive(1, "1");
    board.command(DISABLE_RECEIVER);
    board.command(ENABLE_RECEIVER);
    board.receive_pulses(400, false);
    assert_eq!(board.sr(), 0, "a high seen before the disable is forgotten");
}

/// Disable drops the character and the wait for a break's end, without break change.
#[test]
fn disable() {
    let mut board = Board::on_pins(PINS_1X, RECEIVING);
    board.receive(1, "1 0 1010");
    board.command(DISABLE_RECEIVER);
    board.command(ENABLE_RECEIVER);
    board.receive(1, "1111 1");
    assert_eq!(board.sr(), 0);
    for command in [DISABLE_RECEIVER, RESET_RECEIVER] {
        board.receive(1, "1 0 00000000 0");
        board.command(command);
        board.command(CLEAR_BREAK_CHANGE | ENABLE_RECEIVER);
        board.receive(1, "11");
        assert!(!board.break_change());
    }
}

/// Enabling an enabled receiver is nothing, in a break wait too; 0x21 is reset, then just enabled.
#[test]
fn enable_again() {
    let mut board = Board::on_pins(PINS_1X, RECEIVING);
    board.receive(1, "1 0 0000");
    board.command(ENABLE_RECEIVER);
    board.receive(1, "0000 0");
    board.command(CLEAR_BREAK_CHANGE | ENABLE_RECEIVER);
    board.receive(1, "1");
    assert!(board.break_change());
    board.command(RESET_RECEIVER | ENABLE_RECEIVER);
    board.receive_pulses(20, false);
    assert_eq!(board.sr(), 0, "a high is needed first");
}

/// A 16X character goes on with 16 edges a bit though CSR is 1X now.
#[test]
fn csr_changed_in_a_character() {
    let mut board = Board::on_pins(PINS_16X, RECEIVING);
    board.receive(16, "1 0 1000");
    board.write(1, PINS_1X);
    board.receive(16, "0000 1");
    assert_eq!((board.sr(), board.read(3)), (RXRDY, 1));
}
