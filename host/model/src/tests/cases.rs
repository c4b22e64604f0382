//! The eleven cases of document 01, the frame lister's two lines and the traps.

use super::board::*;
use crate::{frame, FrameAnswer};

/// The levels of the middle of each bit, and the length.
fn mid_levels(mr1: u8, mr2: u8, byte: u8) -> (String, u8) {
    let mut space = [7; 192];
    let answer = frame(mr1, mr2, byte, &mut space);
    assert_eq!(answer.number, 0);
    let levels = space[..usize::from(answer.length)].chunks(16);
    let mids = levels.map(|bit| if bit[bit.len() / 2] == 1 { '1' } else { '0' });
    (mids.collect(), answer.length)
}

/// "Fresh: SRA 0, IVR 15, OP 255, TxD high."
#[test]
fn case_1() {
    let mut board = Board::fresh();
    assert_eq!((board.sr(), board.read(12)), (0, 15));
    let lines = board.lines();
    assert_eq!((lines.op, lines.txda, lines.txdb), (255, true, true));
    assert!(!lines.irq);
}

/// "Register 0: write 19, 7; read 7; command 16; read 19, 7, 7."
#[test]
fn case_2() {
    let mut board = Board::fresh();
    board.write(0, 19);
    board.write(0, 7);
    assert_eq!(board.read(0), 7);
    board.command(16);
    assert_eq!([board.read(0), board.read(0), board.read(0)], [19, 7, 7]);
}

/// "Stop code 0: 9 (8 bits), 17 (5); 7: 16, 24; 15: 32, 32."
#[test]
fn case_3() {
    let length = |mr1, mr2| frame(mr1, mr2, 0, &mut [7; 192]).length;
    let lengths = [0, 7, 15].map(|code| (length(0x13, code) - 9 * 16, length(0x10, code) - 6 * 16));
    assert_eq!(lengths, [(9, 17), (16, 24), (32, 32)]);
}

/// "85, MR1 19, MR2 7: 0101010101, 160 pulses, 3,840 ticks at code 11."
#[test]
fn case_4() {
    assert_eq!(mid_levels(19, 7, 85), ("0101010101".to_string(), 160));
    let mut board = Board::fresh();
    board.mode(19, 7);
    board.write(1, 0xBB);
    board.command(ENABLE_TRANSMITTER);
    board.write(3, 85);
    board.ticks(23);
    assert!(board.lines().txda);
    board.ticks(1);
    assert!(!board.lines().txda, "the frame's first pulse");
    let empty = board.ticks_until(4000, |board| board.sr() & 8 != 0);
    assert_eq!(empty, Some(3840));
}

/// Case 4 on the line, and that the levels of the request are those that the transmitter drives.
#[test]
fn the_line_has_the_levels_of_the_frame() {
    for (mr1, mr2, byte) in [(19, 7, 85), (0x02, 0, 65), (0x06, 8, 193), (0x0C, 15, 3)] {
        let mut board = Board::on_pins(PINS_16X, ENABLE_TRANSMITTER);
        board.mode(mr1, mr2);
        board.write(3, byte);
        let mut space = [7; 192];
        let length = usize::from(frame(mr1, mr2, byte, &mut space).length);
        let levels = space[..length].iter().map(|level| char::from(b'0' + level));
        assert_eq!(board.sends(length as u32), levels.collect::<String>());
        assert_eq!(board.send_pulses_until_empty(), Some(1));
    }
}

/// "65, 7 bits: even parity bit 0, odd 1."
#[test]
fn case_5() {
    assert_eq!(mid_levels(0x02, 7, 65).0, "0100000101");
    assert_eq!(mid_levels(0x06, 7, 65).0, "0100000111");
}

/// "255 with 5 bits: data 31."
#[test]
fn case_6() {
    assert_eq!(mid_levels(0x10, 7, 255), mid_levels(0x10, 7, 31));
    let mut board = Board::on_pins(PINS_1X, ENABLE_RECEIVER);
    board.mode(0x10, 7);
    board.receive(1, "1 0 11111 1");
    assert_eq!(board.read(3), 31);
}

/// "Receiver only, 1, 2, 3, 4 arrive: SR 3; next start: SR 19; 5 arrives: reads 1, 2, 3, 5."
#[test]
fn case_7() {
    let mut board = Board::on_pins(PINS_16X, ENABLE_RECEIVER);
    board.receive(16, "1 0 10000000 1 0 01000000 1 0 11000000 1 0 00100000 1");
    assert_eq!(board.sr(), 3);
    board.receive(16, "1 0");
    assert_eq!(board.sr(), 19);
    board.receive(16, "10100000 1");
    assert_eq!([(); 4].map(|()| board.read(3)), [1, 2, 3, 5]);
}

/// "Four arrive unread, receiver reset: SR 0, read 0."
#[test]
fn case_8() {
    let mut board = Board::on_pins(PINS_1X, ENABLE_RECEIVER);
    board.receive_bytes(&[1, 2, 3, 4]);
    board.command(RESET_RECEIVER);
    assert_eq!((board.sr(), board.read(3)), (0, 0));
}

/// "Low 8 pulses, high at p+8: nothing. Low at p+8: a start."
#[test]
fn case_9() {
    let mut board = Board::on_pins(PINS_16X, ENABLE_RECEIVER);
    board.receive(1, "1 00000000 1");
    board.receive(16, "1111111111");
    assert_eq!(board.sr(), 0);
    board.receive(1, "1 000000000");
    board.receive(16, "1111111111");
    assert_eq!((board.sr(), board.read(3)), (1, 255));
}

/// "Counter on ticks/16, phase 0, preload 3: ISR bit 3 after 48 ticks, not 47."
#[test]
fn case_10() {
    let mut board = Board::fresh();
    board.preload(3);
    board.write(4, 0x30);
    board.start_counter();
    assert_eq!(board.ticks_until(100, Board::isr_bit_3), Some(48));
}

/// "Timer on ticks, preload 2, start: ISR bit 3 after 4 ticks, not 3."
#[test]
fn case_11() {
    let mut board = Board::fresh();
    board.preload(2);
    board.write(4, 0x60);
    board.start_counter();
    assert_eq!(board.ticks_until(100, Board::isr_bit_3), Some(4));
}

/// Order 4: "as case 11 but three ticks, clear the bit with stop, then start: the bit is set."
#[test]
fn case_11_from_low() {
    let mut board = Board::fresh();
    board.preload(2);
    board.write(4, 0x60);
    board.start_counter();
    board.ticks(3);
    board.stop_counter();
    assert!(!board.isr_bit_3());
    board.start_counter();
    assert!(board.isr_bit_3());
}

/// The frame lister: `UA` gives 0101010101 and 0100000101.
#[test]
fn frame_lister() {
    let lines = [b'U', b'A'].map(|byte| mid_levels(19, 7, byte).0);
    assert_eq!(lines, ["0101010101", "0100000101"]);
}

/// "A status read that takes a character."
#[test]
fn trap_1() {
    let mut board = Board::on_pins(PINS_1X, ENABLE_RECEIVER);
    board.receive_bytes(&[7]);
    assert_eq!((board.sr(), board.sr(), board.read(3)), (1, 1, 7));
}

/// "A receiver reset that keeps the waiting character."
#[test]
fn trap_2() {
    let mut board = Board::on_pins(PINS_1X, ENABLE_RECEIVER);
    board.receive_bytes(&[1, 2, 3, 4]);
    board.command(RESET_RECEIVER | ENABLE_RECEIVER);
    board.receive_bytes(&[5, 6, 7]);
    assert_eq!([(); 4].map(|()| board.read(3)), [5, 6, 7, 7]);
    assert_eq!(board.sr(), 0);
}

/// "Overrun that keeps the waiting character and drops the arriving one."
#[test]
fn trap_3() {
    let mut board = Board::on_pins(PINS_1X, ENABLE_RECEIVER);
    board.receive_bytes(&[1, 2, 3, 4, 5]);
    assert_eq!(board.sr(), 19);
    assert_eq!([(); 5].map(|()| board.read(3)), [1, 2, 3, 5, 5]);
}

/// 5 before 8; MR1 bits 6, 5 and MR2 bits 7, 6, 4 are allowed and unused; refused: length 0, space untouched.
#[test]
fn frame_request() {
    let mut space = [7; 200];
    let refused = |number| FrameAnswer { number, length: 0 };
    for (mr1, mr2) in [(0x80, 0), (0x18, 0), (0, 0x20), (0, 0xE0)] {
        assert_eq!(frame(mr1, mr2, 0, &mut space), refused(5));
        assert_eq!(frame(mr1, mr2, 0, &mut []), refused(5));
    }
    assert_eq!(frame(0x03, 15, 0, &mut space[..191]), refused(8));
    assert_eq!(space, [7; 200]);
    let answer = frame(0x63, 0x1F, 0, &mut space);
    assert_eq!((answer.number, answer.length), (0, 192));
    assert_eq!(space[192..], [7; 8]);
    assert_eq!(mid_levels(0x63, 0x1F, 9), mid_levels(0x03, 0x0F, 9));
}
