//! Order 2: what a mode change does. Sentences in double quotes are the order's; the rest is how it is read.

use super::board::*;
use crate::Event;

const BOTH: u8 = ENABLE_RECEIVER | ENABLE_TRANSMITTER;
const MODES: [u8; 4] = [NORMAL, ECHO, LOCAL, REMOTE];

/// A mode with TxDA low (but in local loopback, where it never is): a frame is sent, or a low echoed.
fn with_txd_low(mode: u8) -> Board {
    let mut board = Board::in_mode(mode, PINS_1X, BOTH);
    board.write(3, 0);
    board.sends(3);
    board.receive(1, "100");
    assert_eq!(board.txda(), mode == LOCAL);
    board
}

/// All twelve pairs of different modes are changes, echo to remote too. "holds TxD high until the next pulse"
#[test]
fn twelve_pairs() {
    for pair in 0..16 {
        let (from, to) = (MODES[pair / 4], MODES[pair % 4]);
        let mut board = with_txd_low(from);
        let seen = board.to(to);
        assert_eq!(seen.txda, from != to || from == LOCAL, "{from:x} to {to:x}");
        assert_eq!(board.read(0), to);
    }
}

/// "A mode change drops what is being sent"; the shifter empty at once (TxEMT may read 1 in the same event). The
/// frame does not come back.
#[test]
fn drops_a_character() {
    for to in [ECHO, LOCAL, REMOTE] {
        let mut board = Board::in_mode(NORMAL, PINS_16X, BOTH);
        board.write(3, 0);
        board.sends(20);
        assert!(board.to(to).txda);
        if to == LOCAL {
            assert_eq!(board.sr(), 12);
        }
        assert!(board.to(NORMAL).txda);
        assert_eq!(board.sr(), 12);
        assert_eq!(board.sends(200), "1".repeat(200));
    }
    let mut board = Board::in_mode(LOCAL, PINS_16X, BOTH);
    board.write(3, 0);
    board.sends(20);
    board.to(NORMAL);
    assert_eq!(board.sr(), 12);
    assert_eq!(board.sends(200), "1".repeat(200));
}

/// "(a break too; the holding place stays)"; nothing is owed: the break is dropped, TxD is held high until the next
/// pulse and no longer; that pulse may begin a character
#[test]
fn drops_a_break_and_owes_nothing() {
    for (to, csr, pulses) in [
        (ECHO, PINS_16X, 160),
        (LOCAL, PINS_16X, 160),
        (REMOTE, PINS_1X, 10),
    ] {
        let mut board = Board::in_mode(NORMAL, csr, BOTH);
        board.command(START_BREAK);
        board.sends(40);
        board.write(3, 0);
        assert!(board.to(to).txda);
        assert!(board.to(NORMAL).txda);
        assert_eq!(board.send_pulses_until_low(), Some(1));
        assert_eq!(board.send_pulses_until_empty(), Some(pulses));
        assert_eq!(board.send_pulses_until_low(), None, "the break is gone");
    }
}

/// By one change alone too: the character starts on the very next pulse, in the mode that loops too.
#[test]
fn one_change_owes_nothing() {
    for (from, to, command) in [
        (NORMAL, LOCAL, 0),
        (LOCAL, NORMAL, 0),
        (NORMAL, LOCAL, STOP_BREAK),
        (LOCAL, NORMAL, STOP_BREAK),
    ] {
        let mut board = Board::in_mode(from, PINS_16X, BOTH);
        board.command(START_BREAK);
        board.sends(40);
        board.command(command);
        board.write(3, 0);
        board.to(to);
        assert_eq!(board.sr() & 12, 0, "the holding place stays");
        board.send_pulse();
        assert_eq!(board.sr() & 12, 4, "started");
    }
}

/// The high bit that is owed: the bit is dropped with the rest
#[test]
fn drops_the_high_bit() {
    for to in [ECHO, LOCAL, REMOTE] {
        let mut board = Board::in_mode(NORMAL, PINS_16X, BOTH);
        board.command(START_BREAK);
        board.sends(40);
        board.command(STOP_BREAK);
        board.sends(3);
        board.write(3, 0);
        board.to(to);
        board.to(NORMAL);
        assert_eq!(board.send_pulses_until_low(), Some(1));
    }
}

/// A break asked but not begun stays asked and begins when a pulse allows it
#[test]
fn an_asked_break_stays_asked() {
    for to in [ECHO, LOCAL, REMOTE] {
        let mut board = Board::in_mode(NORMAL, PINS_1X, BOTH);
        board.write(3, 85);
        board.sends(3);
        board.command(START_BREAK);
        board.to(to);
        assert!(board.txda());
        board.to(NORMAL);
        assert_eq!(board.sends(4), "0000");
    }
    let mut board = Board::in_mode(NORMAL, PINS_1X, BOTH);
    board.command(START_BREAK);
    board.to(LOCAL);
    board.sends(20);
    board.command(STOP_BREAK);
    board.write(3, 1);
    board.sends(2);
    assert_eq!(board.sr() & 12, 4, "it began, so one bit was owed");
}

/// "(a break too; the holding place stays)"; the hold ends with that pulse, and a start, or the echo's sample, may
/// come on it
#[test]
fn the_next_pulse_may_start() {
    for from in [ECHO, LOCAL, REMOTE] {
        let mut board = Board::in_mode(from, PINS_1X, BOTH);
        board.write(3, 0x11);
        board.sends(2);
        board.write(3, 85);
        assert!(board.to(NORMAL).txda);
        assert_eq!(board.sends(11), "01010101011");
    }
}

/// The pulse is that of the side which drives TxD in the new mode, the receiver's in the echo modes
#[test]
fn the_next_pulse_may_echo() {
    for (from, to) in [
        (NORMAL, ECHO),
        (NORMAL, REMOTE),
        (LOCAL, ECHO),
        (ECHO, REMOTE),
    ] {
        let mut board = Board::in_mode(from, PINS_1X, BOTH);
        board.low(RXDA | IP4);
        assert!(board.to(to).txda);
        assert_eq!(board.sends(3), "111", "no pulse of the receiver");
        assert!(!board.high(IP4).txda);
    }
}

/// Levels after which the receiver of A, at 16X, has no character yet: hunting with its high, before p+8 and after
/// it, in the bits, without its high, in the bits after a high one.
const PLACES: [&str; 6] = [
    "1",
    "1 0000",
    "1 000000000 0000",
    "1 00000000000000000000000000000000000000001",
    "0000",
    "1 0000000000000000 1111111111111111",
];

/// Nothing arrives of what the receiver had, and it needs a high first.
fn is_dropped(place: &str, to: u8) {
    let mut board = Board::in_mode(NORMAL, PINS_16X, BOTH);
    board.receive(1, place);
    board.to(to);
    board.to(NORMAL);
    board.receive_pulses(300, false);
    assert_eq!((board.sr() & 0xF3, board.isr() & 6), (0, 0), "{place}");
    board.receive(16, "1 0 10101100 1");
    assert_eq!((board.sr() & 0xF3, board.read(3)), (RXRDY, 0x35));
}

/// "or put together, leaves an enabled receiver as just enabled"; from the bits of a character, from p to p+8, ...
/// and also where it was only hunting
#[test]
fn drops_what_is_put_together() {
    for place in PLACES {
        is_dropped(place, ECHO);
        is_dropped(place, LOCAL);
        is_dropped(place, REMOTE);
    }
}

/// The same from automatic echo, straight into normal mode and back.
#[test]
fn echo_drops_what_is_put_together() {
    for (from, to) in [(ECHO, NORMAL), (NORMAL, ECHO)] {
        let mut board = Board::in_mode(from, PINS_1X, ENABLE_RECEIVER);
        board.receive(1, "1 0 1010");
        board.to(to);
        board.receive_pulses(40, false);
        assert_eq!((board.sr() & 0xF3, board.isr()), (0, 0));
        board.receive_byte(0x35);
        assert_eq!((board.sr() & 0xF3, board.read(3)), (RXRDY, 0x35));
    }
}

/// After a low stop: the lows that follow are no new start.
#[test]
fn drops_the_lows_after_a_low_stop() {
    for csr in [PINS_16X, PINS_1X] {
        let mut board = Board::in_mode(NORMAL, csr, ENABLE_RECEIVER);
        board.receive(if csr == PINS_1X { 1 } else { 16 }, "1 0 10000000");
        board.receive_pulses(if csr == PINS_1X { 1 } else { 9 }, false);
        assert_eq!((board.sr(), board.read(3)), (FRAMING | RXRDY, 1));
        board.to(ECHO);
        board.receive_pulses(400, false);
        assert_eq!((board.sr(), board.isr()), (0, 0));
    }
}

/// In the wait for a break's end, which then sets no second break change
#[test]
fn drops_the_wait_for_a_breaks_end() {
    for to in [ECHO, LOCAL, REMOTE] {
        let mut board = Board::in_mode(NORMAL, PINS_16X, ENABLE_RECEIVER);
        board.receive(16, "1 0 00000000 0");
        assert!(board.break_change());
        board.to(to);
        assert!(board.break_change(), "the bit itself stays");
        board.command(CLEAR_BREAK_CHANGE);
        board.receive_pulses(20, true);
        board.sends(20);
        assert!(!board.break_change());
    }
}

/// From local loopback a looped character is dropped on both sides. the pins event still stores RxD's level; the
/// receiver samples it again after the return, when it has sampled a high
#[test]
fn out_of_local_loopback() {
    let mut board = Board::in_mode(LOCAL, PINS_1X, BOTH);
    board.send_pulse();
    board.write(3, 0);
    board.sends(5);
    board.low(RXDA | IP4);
    board.to(NORMAL);
    board.high(IP4);
    board.receive_pulses(20, false);
    assert_eq!(board.sr() & 0xF3, 0, "no high yet");
    board.to(LOCAL);
    board.high(RXDA);
    board.to(NORMAL);
    board.low(IP4);
    board.high(IP4);
    board.receive(1, "0 10101100 1");
    assert_eq!(
        (board.sr() & 0xF3, board.read(3)),
        (RXRDY, 0x35),
        "RxD was high"
    );
}

/// "leaves an enabled receiver as just enabled": a disabled one stays disabled.
#[test]
fn a_disabled_receiver_stays_disabled() {
    let mut board = Board::in_mode(NORMAL, PINS_1X, 0);
    board.to(ECHO);
    board.receive_byte(9);
    assert!(board.low(RXDA).txda);
    board.receive_pulse(false);
    assert!(board.txda());
    board.to(NORMAL);
    board.receive_byte(9);
    assert_eq!(board.sr(), 0);
}

/// A refused answer shows the same. And a chip reset leaves normal mode with TxD high.
#[test]
fn refusals_and_chip_reset() {
    let mut board = with_txd_low(ECHO);
    assert!(!board.give(Event::Read(2)).txda);
    assert!(board.give(Event::ChipReset).txda);
    board.command(ENABLE_TRANSMITTER);
    assert_eq!(board.sr(), 12);
}
