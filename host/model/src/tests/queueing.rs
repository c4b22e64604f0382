//! Readings on the queue, the waiting place and the marks.

use super::board::*;

/// MR1: 8 data bits without parity, block errors.
const BLOCK: u8 = 0x33;
const CHARACTER: u8 = 0x13;

fn receiving() -> Board {
    Board::on_pins(PINS_1X, ENABLE_RECEIVER)
}

/// A character with a low stop, and the high after it.
fn receive_with_low_stop(board: &mut Board) {
    board.receive(1, "1 0 10000000 0 1");
}

/// The block sums grow in either mode; only command 4 and a chip reset clear them; they show with an
/// empty queue.
#[test]
fn block_sums() {
    let mut board = receiving();
    receive_with_low_stop(&mut board);
    board.read(3);
    assert_eq!(board.sr(), 0);
    board.mode(BLOCK, 0);
    assert_eq!(board.sr(), FRAMING);
    board.command(RESET_RECEIVER | ENABLE_RECEIVER);
    assert_eq!(board.sr(), FRAMING);
    board.mode(0x27, 0);
    board.receive(1, "1 0 00000000 0 0 1");
    assert_eq!(board.sr(), BREAK | FRAMING | RXRDY);
    board.receive(1, "1 0 10000000 1 1");
    board.read(3);
    assert_eq!(
        board.sr(),
        BREAK | FRAMING | PARITY | RXRDY,
        "each bit ORed"
    );
    board.read(3);
    assert_eq!(board.sr(), BREAK | FRAMING | PARITY);
    board.command(CLEAR_ERRORS);
    assert_eq!(board.sr(), 0);
}

/// Command 4 clears the top character's own marks; the second keeps its marks and counts when it
/// becomes oldest.
#[test]
fn command_4() {
    let mut board = receiving();
    board.mode(BLOCK, 0);
    receive_with_low_stop(&mut board);
    receive_with_low_stop(&mut board);
    board.command(CLEAR_ERRORS);
    assert_eq!(board.sr(), RXRDY);
    board.mode(CHARACTER, 0);
    assert_eq!(board.sr(), RXRDY);
    board.read(3);
    assert_eq!(board.sr(), FRAMING | RXRDY);
    board.mode(BLOCK, 0);
    assert_eq!(board.sr(), FRAMING | RXRDY);
}

/// "since": a second in the queue does not count before it becomes oldest.
#[test]
fn block_sums_of_the_oldest_only() {
    let mut board = receiving();
    board.mode(BLOCK, 0);
    board.receive_byte(1);
    receive_with_low_stop(&mut board);
    assert_eq!(board.sr(), RXRDY);
    board.read(3);
    assert_eq!(board.sr(), FRAMING | RXRDY);
}

/// Break change is set at the arrival even if the break goes to the waiting place and is lost.
#[test]
fn break_change_of_a_lost_break() {
    let mut board = receiving();
    board.receive_bytes(&[1, 2, 3]);
    board.receive(1, "1 0 00000000 0");
    assert!(board.break_change());
    board.receive_bytes(&[4]);
    assert!(board.break_change());
    board.mode(BLOCK, 0);
    for byte in [1, 2, 3, 4] {
        assert_eq!(board.read(3), byte);
    }
    assert_eq!(board.sr(), OVERRUN, "the lost break's mark never counted");
    board.command(RESET_RECEIVER);
    assert!(board.break_change());
    board.command(CLEAR_BREAK_CHANGE);
    assert!(!board.break_change());
}

/// Overrun at the confirmed start: at 16X p+8, not p, and not by a false start; at 1X p.
#[test]
fn overrun_at_the_confirmed_start() {
    let mut board = receiving();
    board.receive_bytes(&[1, 2, 3, 4]);
    board.write(1, PINS_16X);
    board.receive(1, "1 00000000 1 00000000");
    assert_eq!(board.sr(), FFULL | RXRDY);
    board.receive(1, "0");
    assert_eq!(board.sr(), OVERRUN | FFULL | RXRDY);

    let mut board = receiving();
    board.receive_bytes(&[1, 2, 3, 4]);
    board.receive(1, "10");
    assert_eq!(board.sr(), OVERRUN | FFULL | RXRDY);
    board.command(CLEAR_ERRORS);
    assert_eq!(board.sr(), FFULL | RXRDY);
}

/// "A confirmed start while one waits": with three held and none waiting it is no overrun.
#[test]
fn no_overrun_with_three_held() {
    let mut board = receiving();
    board.receive_bytes(&[1, 2, 3, 4]);
    board.read(3);
    board.receive_bytes(&[5]);
    assert_eq!(board.sr(), FFULL | RXRDY);
    assert_eq!([(); 4].map(|()| board.read(3)), [2, 3, 4, 5]);
}

/// A read while one waits leaves three held; the new oldest enters the block sums.
#[test]
fn read_while_one_waits() {
    let mut board = receiving();
    board.mode(BLOCK, 0);
    board.receive_bytes(&[1]);
    receive_with_low_stop(&mut board);
    board.receive_bytes(&[3, 4]);
    assert_eq!(board.sr(), FFULL | RXRDY);
    board.read(3);
    assert_eq!(board.sr(), FRAMING | FFULL | RXRDY);
    assert_eq!([(); 3].map(|()| board.read(3)), [1, 3, 4]);
}

/// Disable keeps queue, waiting place, overrun and break change, and they show.
#[test]
fn disable_keeps() {
    let mut board = receiving();
    board.receive(1, "1 0 00000000 0");
    board.receive_bytes(&[2, 3, 4, 5]);
    board.command(DISABLE_RECEIVER);
    assert_eq!(board.sr(), BREAK | OVERRUN | FFULL | RXRDY);
    assert!(board.break_change());
    assert_eq!([(); 4].map(|()| board.read(3)), [0, 2, 3, 5]);
}

/// A receiver reset keeps overrun and the last byte read.
#[test]
fn reset_keeps() {
    let mut board = receiving();
    board.receive_bytes(&[9, 2, 3, 4, 5]);
    board.read(3);
    board.command(RESET_RECEIVER);
    assert_eq!((board.sr(), board.read(3)), (OVERRUN, 9));
}

/// A stale read leaves the last byte read; a fresh one makes it, with the receiver disabled too.
#[test]
fn last_byte_read() {
    let mut board = receiving();
    board.receive_bytes(&[7, 8]);
    board.command(DISABLE_RECEIVER);
    assert_eq!([(); 4].map(|()| board.read(3)), [7, 8, 8, 8]);
    board.give(crate::Event::ChipReset);
    assert_eq!(board.read(3), 0);
}

/// "Unused data bits are 0."
#[test]
fn unused_data_bits() {
    let mut board = receiving();
    for (mr1, levels, byte) in [
        (0x10, "1 0 11111 1", 31),
        (0x11, "1 0 111111 1", 63),
        (0x02, "1 0 1111111 1 1", 127),
    ] {
        board.mode(mr1, 0);
        board.receive(1, levels);
        assert_eq!((board.sr(), board.read(3)), (RXRDY, byte));
    }
}
