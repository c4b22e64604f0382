//! Order 1: "The receive buffer read shall also say fresh or stale: fresh exactly when RxRDY was set before
//! it." "Refusals: none new; a refused read or any other event is stale."

use super::board::*;
use crate::{Event, Seen};

const BUFFER_A: u8 = 3;
const BUFFER_B: u8 = 11;

/// MR1: 8 data bits without parity, FFULL instead of RxRDY for ISR.
const FFULL_FOR_ISR: u8 = 0x53;

fn receiving() -> Board {
    Board::on_pins(PINS_1X, ENABLE_RECEIVER)
}

/// Channel B as `receiving` has channel A.
fn receiving_on_both() -> Board {
    let mut board = receiving();
    for (register, byte) in [(8, 0x13), (8, 7), (9, PINS_1X), (10, ENABLE_RECEIVER)] {
        board.write(register, byte);
    }
    board
}

/// A character of 8 data bits on B at 1X, after a high. IP2 is B's clock; IP4, which is A's, stays.
fn receive_on_b(board: &mut Board, byte: u8) {
    let bits = u16::from(byte) << 2 | 0x401;
    for place in 0..11 {
        board.low(IP2 | RXDB);
        board.high(if bits >> place & 1 == 1 { RXDB } else { 0 });
        board.high(IP2);
    }
}

/// The byte, and whether it is fresh.
fn read(board: &mut Board, buffer: u8) -> (u8, bool) {
    let Seen {
        number,
        data,
        fresh,
        ..
    } = board.give(Event::Read(buffer));
    assert_eq!(number, 0);
    (data, fresh)
}

fn reads<const N: usize>(board: &mut Board) -> [(u8, bool); N] {
    [(); N].map(|()| read(board, BUFFER_A))
}

/// A fresh read takes the byte; a stale one repeats it and changes nothing.
#[test]
fn once() {
    let mut board = receiving();
    assert_eq!(reads(&mut board), [(0, false), (0, false)]);
    board.receive_byte(7);
    assert_eq!(reads(&mut board), [(7, true), (7, false), (7, false)]);
    let lines = board.lines();
    assert_eq!((board.sr(), board.isr()), (0, 0));
    read(&mut board, BUFFER_A);
    assert_eq!((board.sr(), board.isr(), board.lines()), (0, 0, lines));
    board.receive_byte(8);
    assert_eq!(reads(&mut board), [(8, true), (8, false)]);
}

/// Fresh is about the read and not about the byte: equal bytes, and zeros after a chip reset, are fresh.
#[test]
fn equal_bytes() {
    let mut board = receiving();
    board.receive_bytes(&[0, 0, 9]);
    assert_eq!(reads(&mut board), [(0, true), (0, true), (9, true)]);
    board.receive_byte(9);
    assert_eq!(reads(&mut board), [(9, true), (9, false)]);
}

/// A waiting character moves up and is fresh too; a lost one is not read at all.
#[test]
fn four_held_and_one_lost() {
    let mut board = receiving();
    board.receive_bytes(&[1, 2, 3, 4, 5]);
    let taken = [(1, true), (2, true), (3, true), (5, true), (5, false)];
    assert_eq!(reads(&mut board), taken);
}

/// Marks play no part: a break's zero and a character with a low stop are fresh.
#[test]
fn with_marks() {
    let mut board = receiving();
    board.receive(1, "1 0 00000000 0 1 1 0 10000000 0 1");
    assert_eq!(reads(&mut board), [(0, true), (1, true), (1, false)]);
}

/// "RxRDY" is SR's bit and not ISR's, which MR1 bit 6 makes FFULL.
#[test]
fn ffull_for_isr() {
    let mut board = receiving();
    board.mode(FFULL_FOR_ISR, 7);
    board.receive_bytes(&[1, 2]);
    assert_eq!((board.isr(), board.sr()), (0, RXRDY));
    assert_eq!(reads(&mut board), [(1, true), (2, true), (2, false)]);
    board.receive_bytes(&[1, 2, 3]);
    let taken = [(1, true), (2, true), (3, true), (3, false)];
    assert_eq!(reads(&mut board), taken);
}

/// What a disabled receiver holds is fresh, and an enabled one that holds nothing is stale.
#[test]
fn disabled() {
    let mut board = receiving();
    board.receive_bytes(&[7, 8]);
    board.command(DISABLE_RECEIVER);
    assert_eq!(reads(&mut board), [(7, true), (8, true), (8, false)]);
    board.command(ENABLE_RECEIVER);
    assert_eq!(read(&mut board, BUFFER_A), (8, false));
}

/// The canine that is made again: an offset waits, the receiver is reset, and the new offset comes once.
#[test]
fn after_a_receiver_reset() {
    let mut board = receiving();
    board.receive_bytes(&[1, 2, 3, 4, 5]);
    assert_eq!(read(&mut board, BUFFER_A), (1, true));
    board.command(RESET_RECEIVER);
    assert_eq!(reads(&mut board), [(1, false), (1, false)]);
    board.command(ENABLE_RECEIVER);
    assert_eq!(read(&mut board, BUFFER_A), (1, false));
    board.receive_byte(6);
    assert_eq!(reads(&mut board), [(6, true), (6, false), (6, false)]);
}

#[test]
fn after_a_chip_reset() {
    let mut board = receiving();
    board.receive_bytes(&[1, 2]);
    assert!(!board.give(Event::ChipReset).fresh);
    assert_eq!(read(&mut board, BUFFER_A), (0, false));
}

/// "RxRDY" of the channel that is read.
#[test]
fn the_other_channel() {
    let mut board = receiving_on_both();
    board.receive_byte(7);
    assert_eq!(read(&mut board, BUFFER_B), (0, false));
    assert_eq!(read(&mut board, BUFFER_A), (7, true));
    receive_on_b(&mut board, 9);
    assert_eq!(read(&mut board, BUFFER_A), (7, false));
    assert_eq!(read(&mut board, BUFFER_B), (9, true));
    assert_eq!(read(&mut board, BUFFER_B), (9, false));
}

/// B goes by the same rule: neither MR1 bit 6 nor the enable plays a part, and a receiver reset leaves nothing.
#[test]
fn channel_b() {
    let mut board = receiving_on_both();
    board.write(10, POINTER_TO_MR1);
    board.write(8, FFULL_FOR_ISR);
    receive_on_b(&mut board, 5);
    receive_on_b(&mut board, 5);
    board.write(10, DISABLE_RECEIVER);
    assert_eq!(board.isr(), 0);
    assert_eq!(read(&mut board, BUFFER_B), (5, true));
    assert_eq!(read(&mut board, BUFFER_B), (5, true));
    assert_eq!(read(&mut board, BUFFER_B), (5, false));
    board.write(10, ENABLE_RECEIVER);
    receive_on_b(&mut board, 6);
    board.write(10, RESET_RECEIVER | ENABLE_RECEIVER);
    assert_eq!(read(&mut board, BUFFER_B), (5, false));
}

/// A board on which both channels hold a character and IRQ is asserted by them.
fn holding_on_both() -> Board {
    let mut board = receiving_on_both();
    board.receive_byte(7);
    receive_on_b(&mut board, 9);
    board.write(5, 0x22);
    assert_eq!((board.read(1), board.read(9)), (RXRDY, RXRDY));
    board
}

/// "any other event is stale": the reads of all other registers, all writes, and what is no access.
#[test]
fn other_events() {
    let buffers = [BUFFER_A, BUFFER_B];
    let registers = (0..16).filter(|register| !buffers.contains(register));
    let other_reads = registers.filter(|register| ![2, 10].contains(register));
    let writes = (0..16).map(|register| Event::Write(register, 0));
    let rest = [
        Event::Acknowledge,
        Event::Pins(0),
        Event::Tick,
        Event::ChipReset,
    ];
    for event in other_reads.map(Event::Read).chain(writes).chain(rest) {
        let seen = holding_on_both().give(event);
        assert_eq!((seen.number, seen.fresh), (0, false), "{event:?}");
    }
}

/// A refused read is stale, whatever its register's low bits; the characters are still there.
#[test]
fn refusals() {
    let above_15 = (16..=255).map(Event::Read);
    let others = [
        Event::Read(2),
        Event::Read(10),
        Event::Write(19, 0),
        Event::Write(2, 0x03),
        Event::Write(0, 0xE0),
        Event::Write(13, 0x0B),
    ];
    let mut board = holding_on_both();
    for event in above_15.chain(others) {
        let seen = board.give(event);
        assert!(seen.number != 0, "{event:?}");
        assert_eq!((seen.data, seen.fresh), (0, false), "{event:?}");
    }
    board.write(5, 0);
    let seen = board.give(Event::Acknowledge);
    assert_eq!((seen.number, seen.fresh), (6, false));
    assert_eq!(read(&mut board, BUFFER_A), (7, true));
    assert_eq!(read(&mut board, BUFFER_B), (9, true));
}
