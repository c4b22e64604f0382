//! Readings on sending characters.

use super::board::*;
use crate::frame;

/// The shifter is empty on the pulse after the frame's last.
#[test]
fn shifter_empty() {
    for (csr, pulses) in [(PINS_16X, 160), (PINS_1X, 10)] {
        let mut board = Board::on_pins(csr, ENABLE_TRANSMITTER);
        board.write(3, 85);
        assert_eq!(board.send_pulses_until_empty(), Some(pulses + 1));
    }
}

/// "at the earliest on the pulse after a frame's last"
#[test]
fn next_character_starts_on_the_pulse_after() {
    let mut board = Board::on_pins(PINS_1X, ENABLE_TRANSMITTER);
    board.write(3, 85);
    board.send_pulse();
    board.write(3, 15);
    assert_eq!(board.sends(19), "1010101010111100001");
    assert_eq!(board.sr() & 12, 4, "ready, not yet empty");
}

/// The source is CSR as it stands, the meaning of a pulse is taken at the start.
#[test]
fn csr_changed_in_a_character() {
    let mut board = Board::on_pins(PINS_16X, ENABLE_TRANSMITTER);
    board.write(3, 85);
    board.sends(20);
    board.write(1, PINS_1X);
    assert_eq!(board.send_pulses_until_empty(), Some(141));
}

/// The format is taken when the character starts, not when it is written; CTS goes as it stands.
#[test]
fn format_at_the_start() {
    let mut board = Board::on_pins(PINS_1X, ENABLE_TRANSMITTER);
    board.write(3, 255);
    board.mode(0x10, 0);
    board.send_pulse();
    board.mode(0x13, 15);
    assert_eq!(board.send_pulses_until_empty(), Some(7));

    board.mode(0x13, 0x10);
    board.write(3, 0);
    assert_eq!(board.send_pulses_until_low(), None, "CTS is high");
    board.mode(0x13, 0x00);
    assert_eq!(board.send_pulses_until_low(), Some(1));
}

/// A write while disabled is ignored with a full holding place too; a second write replaces the first.
#[test]
fn writes() {
    let mut board = Board::on_pins(PINS_1X, ENABLE_TRANSMITTER);
    board.write(3, 1);
    board.write(3, 85);
    board.command(DISABLE_TRANSMITTER);
    board.write(3, 255);
    assert_eq!(board.sends(3), "111", "disabled");
    board.command(ENABLE_TRANSMITTER);
    assert_eq!(board.sends(10), "0101010101");
    board.command(DISABLE_TRANSMITTER);
    board.write(3, 0);
    board.command(ENABLE_TRANSMITTER);
    assert_eq!(board.send_pulses_until_low(), None);
}

/// "Disable lets the shifter finish and keeps the holding place."
#[test]
fn disable_in_a_frame() {
    let mut board = Board::on_pins(PINS_1X, ENABLE_TRANSMITTER);
    board.write(3, 85);
    board.send_pulse();
    board.write(3, 0);
    board.command(DISABLE_TRANSMITTER);
    assert_eq!(board.sends(12), "101010101111");
    assert_eq!(board.sr(), 0);
    board.command(ENABLE_TRANSMITTER);
    assert_eq!(board.send_pulses_until_low(), Some(1));
}

/// CTS is looked at only on a pulse that could start a character; A has IP0, B has IP1.
#[test]
fn cts() {
    let mut board = Board::on_pins(PINS_1X, ENABLE_TRANSMITTER);
    board.mode(0x13, 0x17);
    board.write(3, 85);
    board.low(IP1);
    assert_eq!(board.sends(3), "111");
    board.low(IP0);
    assert_eq!(board.sends(2), "01");
    board.high(IP0);
    assert_eq!(board.sends(8), "01010101");

    let mut board = Board::fresh();
    board.write(8, 0x13);
    board.write(8, 0x17);
    board.write(9, PINS_1X);
    board.write(10, ENABLE_TRANSMITTER);
    board.write(11, 0);
    board.low(IP0 | IP5);
    assert!(board.lines().txdb);
    board.high(IP5);
    assert!(!board.low(IP1 | IP5).txdb, "CTS and the clock in one event");
}

/// A reset in a frame: TxD is high at once, and the next start may come on the very next pulse.
#[test]
fn reset_in_a_frame() {
    let mut board = Board::on_pins(PINS_16X, ENABLE_TRANSMITTER);
    board.write(3, 0);
    board.sends(5);
    board.write(3, 1);
    assert!(board.command(RESET_TRANSMITTER).txda);
    assert_eq!(board.sr(), 0);
    board.command(ENABLE_TRANSMITTER);
    assert_eq!(board.sr(), 12, "the holding place is empty");
    board.write(3, 0);
    assert_eq!(board.send_pulses_until_low(), Some(1));
}

/// At 1X the stop length goes by MR2 bit 3 alone, for 5 data bits too.
#[test]
fn stop_at_1x() {
    for (mr1, mr2, pulses) in [(0x10, 7, 7), (0x10, 8, 8), (0x13, 7, 10), (0x13, 15, 11)] {
        let mut board = Board::on_pins(PINS_1X, ENABLE_TRANSMITTER);
        board.mode(mr1, mr2);
        board.write(3, 0);
        assert_eq!(board.send_pulses_until_empty(), Some(pulses + 1));
    }
}

/// Parity is over the data bits in use only.
#[test]
fn parity_over_the_bits_in_use() {
    let levels = |byte| {
        let mut space = [7; 192];
        frame(0x02, 7, byte, &mut space);
        space
    };
    assert_eq!(levels(193), levels(65));
}
