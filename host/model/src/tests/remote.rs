//! Order 2: remote loopback, the counter in the four modes, and the two channels beside each other. Sentences in double
//! quotes are the order's. What remote loopback has of automatic echo is tested there.

use super::board::*;

const BOTH: u8 = ENABLE_RECEIVER | ENABLE_TRANSMITTER;

/// "no character is put together"; No character includes the break: no break change, neither its begin nor its end,
/// and no overrun.
#[test]
fn no_character_is_put_together() {
    for csr in [PINS_1X, PINS_16X, 0xEF, 0xFE] {
        let mut board = Board::in_mode(REMOTE, csr, BOTH);
        board.receive_bytes(&[1, 2, 3]);
        board.receive(16, "1 0 10000000 1");
        board.receive_pulses(200, false);
        board.receive_pulses(200, true);
        board.write(3, 0x55);
        board.sends(200);
        assert_eq!((board.sr(), board.isr(), board.read(3)), (0, 0, 0));
    }
}

/// What was held before can be read, with its marks, RxRDY, FFULL and overrun as they stand; the same with a waiting
/// character, which no start removes there and a confirmed one later does .
#[test]
fn what_was_held_can_be_read() {
    let mut board = Board::on_pins(PINS_1X, ENABLE_RECEIVER);
    board.receive(1, "1 0 10000000 0 1");
    board.receive_bytes(&[2, 3, 4]);
    board.to(REMOTE);
    board.receive_bytes(&[5, 6]);
    assert_eq!(board.sr(), FRAMING | FFULL | RXRDY, "no overrun");
    assert_eq!((board.read(3), board.sr()), (1, FFULL | RXRDY));
    assert_eq!([(); 4].map(|()| board.read(3)), [2, 3, 4, 4]);

    let mut board = Board::on_pins(PINS_1X, ENABLE_RECEIVER);
    board.receive_bytes(&[1, 2, 3, 4]);
    board.to(REMOTE);
    board.receive_bytes(&[5]);
    board.to(NORMAL);
    assert_eq!(board.sr(), 3);
    board.receive_bytes(&[6]);
    assert_eq!(board.sr(), 19);
    assert_eq!([(); 4].map(|()| board.read(3)), [1, 2, 3, 6]);
}

/// Break change in remote loopback: a wait for a break's end that the mode change has dropped does not end.
#[test]
fn no_break_ends() {
    let mut board = Board::on_pins(PINS_1X, ENABLE_RECEIVER);
    board.receive(1, "1 0 00000000 0");
    board.command(CLEAR_BREAK_CHANGE);
    board.to(REMOTE);
    board.receive_pulses(40, true);
    board.to(NORMAL);
    board.receive_pulses(40, true);
    assert!(!board.break_change());
}

/// The return from remote loopback leaves the receiver as just enabled: the highs heard there count for nothing.
#[test]
fn highs_of_remote_loopback_count_for_nothing() {
    let mut board = Board::in_mode(REMOTE, PINS_1X, ENABLE_RECEIVER);
    board.receive_pulses(40, true);
    board.to(NORMAL);
    board.receive(1, "0 10000000 1");
    assert_eq!(board.sr(), 0);
    // The high among them was the first that counted, so the low after it was the start.
    board.receive(1, "11");
    assert_eq!((board.sr(), board.read(3)), (RXRDY, 0xC0));
}

/// The pulses of IP3, then those of IP4, until the counter on TxCA 1X with preload 2 is terminal.
fn pulses_to_terminal(mode: u8, csr: u8) -> (Option<u32>, Option<u32>) {
    let count = |act: fn(&mut Board)| {
        let mut board = Board::in_mode(mode, csr, ENABLE_RECEIVER);
        board.preload(2);
        board.write(4, 0x10);
        board.start_counter();
        board.times_until(40, act, Board::isr_bit_3)
    };
    let ip3 = |board: &mut Board| {
        board.send_pulse();
    };
    (count(ip3), count(|board| board.receive_pulse(true)))
}

/// The transmitter's clock by CSR bits 3-0, in every mode; The transmitter's pulses go on and count for the 1X clock.
#[test]
fn the_counter_counts_the_transmitters_clock() {
    for mode in [NORMAL, ECHO, LOCAL, REMOTE] {
        assert_eq!(pulses_to_terminal(mode, 0xFE), (Some(32), None));
        assert_eq!(pulses_to_terminal(mode, 0xEF), (Some(2), None));
    }
}

/// B is looped as A is, on IP5, with IP1 for CTS; each channel has its own mode.
#[test]
fn channel_b() {
    let mut board = Board::on_pins(PINS_1X, ENABLE_TRANSMITTER);
    board.write(8, 0x13);
    board.write(8, LOCAL | 0x10);
    board.write(9, 0x0F);
    board.write(10, BOTH);
    board.low(IP0 | IP5 | RXDB);
    board.write(11, 0x35);
    board.high(IP5);
    board.low(IP5);
    assert_eq!(board.read(9) & 0x0C, 0, "CTS is high");
    board.low(IP1);
    for _ in 0..10 {
        board.high(IP5);
        assert!(board.low(IP5).txdb);
    }
    assert_eq!((board.read(9) & 0xF3, board.read(11)), (RXRDY, 0x35));
    board.write(3, 0);
    assert!(!board.send_pulse(), "A is in normal mode");
}

/// B echoes as A does, RxDB on a rising IP2, whatever A does.
#[test]
fn channel_b_echoes() {
    for mode in [ECHO, REMOTE] {
        let mut board = Board::in_mode(LOCAL, PINS_1X, BOTH);
        board.write(8, 0x13);
        board.write(8, mode);
        board.write(9, PINS_1X);
        board.write(10, ENABLE_RECEIVER);
        assert!(board.low(IP2 | RXDB).txdb);
        let seen = board.high(IP2);
        assert_eq!((seen.txda, seen.txdb), (true, false));
        assert!(!board.command(RESET_RECEIVER).txdb, "A's command");
        assert!(!board.to(NORMAL).txdb, "A's mode");
        assert!(board.write(8, NORMAL).txdb);
    }
}
