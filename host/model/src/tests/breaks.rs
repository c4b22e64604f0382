//! Readings on sending breaks.

use super::board::*;

/// A board on which a break is being sent.
fn in_a_break(csr: u8) -> Board {
    let mut board = Board::on_pins(csr, ENABLE_TRANSMITTER);
    board.command(START_BREAK);
    assert!(board.lines().txda, "a break begins on a pulse");
    assert!(!board.send_pulse());
    board
}

/// A break is no character, so TxEMT and TxRDY go by their definitions.
#[test]
fn status_in_a_break() {
    let mut board = in_a_break(PINS_16X);
    assert_eq!(board.sr(), 12);
    board.command(STOP_BREAK);
    assert_eq!(board.sr(), 12);
}

/// TxD is high in the same event, for 16 pulses or 1, and the start is on the pulse after.
#[test]
fn high_bit() {
    for (csr, pulses) in [(PINS_16X, 16), (PINS_1X, 1)] {
        for command in [STOP_BREAK, DISABLE_TRANSMITTER, RESET_TRANSMITTER] {
            let mut board = in_a_break(csr);
            board.sends(50);
            assert!(board.command(command).txda);
            board.command(ENABLE_TRANSMITTER);
            board.write(3, 0);
            assert_eq!(board.send_pulses_until_low(), Some(pulses + 1));
        }
    }
}

/// A reset in the high bit leaves it owed; a chip reset owes nothing.
#[test]
fn resets_and_the_high_bit() {
    let mut board = in_a_break(PINS_16X);
    board.command(STOP_BREAK);
    board.sends(5);
    board.command(RESET_TRANSMITTER | ENABLE_TRANSMITTER);
    board.write(3, 0);
    assert_eq!(board.send_pulses_until_low(), Some(12));

    let mut board = in_a_break(PINS_16X);
    assert!(board.give(crate::Event::ChipReset).txda);
    board.write(1, PINS_16X);
    board.command(ENABLE_TRANSMITTER);
    board.write(3, 0);
    assert_eq!(board.send_pulses_until_low(), Some(1));
}

/// 16 or 1 goes by CSR as it stands; a pulse at 1X completes the bit, the one after may start.
#[test]
fn csr_changed_in_the_high_bit() {
    let mut board = in_a_break(PINS_16X);
    board.command(STOP_BREAK);
    board.write(3, 0);
    board.sends(5);
    board.write(1, PINS_1X);
    assert_eq!(board.send_pulses_until_low(), Some(2));

    let mut board = in_a_break(PINS_1X);
    board.command(STOP_BREAK);
    board.write(3, 0);
    board.write(1, PINS_16X);
    assert_eq!(board.send_pulses_until_low(), Some(17));
}

/// Pulses count toward the high bit with the transmitter disabled.
#[test]
fn high_bit_while_disabled() {
    let mut board = in_a_break(PINS_16X);
    board.command(DISABLE_TRANSMITTER);
    board.sends(10);
    board.command(ENABLE_TRANSMITTER);
    board.write(3, 0);
    assert_eq!(board.send_pulses_until_low(), Some(7));
}

/// Start break in a break is nothing; in the high bit it is a new break, after the bit.
#[test]
fn start_break_again() {
    let mut board = in_a_break(PINS_16X);
    board.command(START_BREAK);
    board.command(STOP_BREAK);
    assert_eq!(board.send_pulses_until_low(), None);

    let mut board = in_a_break(PINS_16X);
    board.command(STOP_BREAK);
    board.command(START_BREAK);
    assert_eq!(board.send_pulses_until_low(), Some(17));

    let mut board = in_a_break(PINS_1X);
    board.command(STOP_BREAK);
    board.command(START_BREAK);
    board.write(3, 255);
    assert_eq!(board.sends(16), "1 0111111111 00000".replace(' ', ""));
}

/// A break does not look at CTS, which can be what lets it begin before a held character.
#[test]
fn break_before_a_character_that_cts_stops() {
    let mut board = Board::on_pins(PINS_1X, ENABLE_TRANSMITTER);
    board.mode(0x13, 0x17);
    board.write(3, 255);
    board.command(START_BREAK);
    assert_eq!(board.sends(5), "00000");
    board.low(IP0);
    assert_eq!(board.sends(5), "00000", "nothing else ends it");
    board.command(STOP_BREAK);
    assert_eq!(board.sends(4), "1011");
}

/// A character that can start beats a break asked earlier.
#[test]
fn character_before_break() {
    let mut board = Board::on_pins(PINS_1X, ENABLE_TRANSMITTER);
    board.command(START_BREAK);
    board.write(3, 255);
    assert_eq!(board.sends(15), "011111111100000");
}

/// A break not yet begun is just dropped.
#[test]
fn break_dropped() {
    for command in [STOP_BREAK, DISABLE_TRANSMITTER, RESET_TRANSMITTER] {
        let mut board = Board::on_pins(PINS_16X, ENABLE_TRANSMITTER);
        board.command(START_BREAK);
        board.command(command);
        board.command(ENABLE_TRANSMITTER);
        assert_eq!(board.send_pulses_until_low(), None);
        board.write(3, 0);
        assert_eq!(board.send_pulses_until_low(), Some(1));
    }
}

/// Bits 6-4 first, then 3-2.
#[test]
fn order_in_a_command() {
    let mut board = Board::on_pins(PINS_1X, START_BREAK | ENABLE_TRANSMITTER);
    assert_eq!(board.send_pulses_until_low(), None, "ignored, then enabled");
    board.command(START_BREAK | DISABLE_TRANSMITTER);
    board.command(ENABLE_TRANSMITTER);
    assert_eq!(board.send_pulses_until_low(), None, "asked, then dropped");
    board.write(3, 0);
    board.command(RESET_TRANSMITTER | ENABLE_TRANSMITTER);
    assert_eq!(board.sr(), 12, "reset, then enabled");
}

/// Stop break in a frame changes nothing.
#[test]
fn stop_break_in_a_frame() {
    let mut board = Board::on_pins(PINS_16X, ENABLE_TRANSMITTER);
    board.write(3, 85);
    board.sends(5);
    assert!(!board.command(STOP_BREAK).txda);
    assert_eq!(board.send_pulses_until_empty(), Some(156));
}
