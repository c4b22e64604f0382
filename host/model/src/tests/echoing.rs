//! Order 2: automatic echo, and what remote loopback has of it ("the same echo"). Sentences in double quotes are the
//! order's; the rest is how it is read.

use super::board::*;
use crate::Event;

const BOTH: u8 = ENABLE_RECEIVER | ENABLE_TRANSMITTER;
const ECHOES: [u8; 2] = [ECHO, REMOTE];

/// TxDA after a pulse of the receiver at a level of RxDA.
fn echo(board: &mut Board, high: bool) -> bool {
    board.receive_pulse(high);
    board.txda()
}

/// TxDA after each of some commands, as 0s and 1s.
fn after_each(board: &mut Board, commands: &[u8]) -> String {
    let levels = commands.iter().map(|command| board.command(*command).txda);
    levels.map(|high| if high { '1' } else { '0' }).collect()
}

/// The modes that echo, each with two bytes.
fn echoes_with(bytes: [u8; 2]) -> [(u8, u8); 4] {
    let [one, other] = bytes;
    [(ECHO, one), (ECHO, other), (REMOTE, one), (REMOTE, other)]
}

/// "at each pulse of an enabled receiver TxD takes the sampled level"; 16 a bit at 16X, whatever the receiver makes
/// of the level: also before its first high, in a false start, in a break
#[test]
fn txd_takes_the_sampled_level() {
    for (mode, csr) in echoes_with([PINS_16X, PINS_1X]) {
        let mut board = Board::in_mode(mode, csr, ENABLE_RECEIVER);
        let levels = "0010001011101".chars().map(|level| level == '1');
        assert!(levels
            .into_iter()
            .all(|high| echo(&mut board, high) == high));
        board.receive_pulses(400, false);
        assert!(!board.txda(), "in a break");
        assert!(echo(&mut board, true));
    }
}

/// Between pulses RxD does not reach TxD. The clock is CSR bits 7-4, on a rising edge.
#[test]
fn between_pulses_rxd_does_not_reach_txd() {
    for mode in ECHOES {
        let mut board = Board::in_mode(mode, PINS_1X, ENABLE_RECEIVER);
        assert!(board.low(RXDA).txda);
        assert!(board.low(IP4).txda, "the falling edge");
        assert!(!board.high(IP4).txda);
        assert!(!board.high(RXDA).txda);
        assert_eq!(board.sends(20), "0".repeat(20), "the transmitter's pulses");
        let mut board = Board::in_mode(mode, 0xCB, ENABLE_RECEIVER);
        board.low(RXDA);
        assert_eq!(board.ticks_until(30, |board| !board.txda()), Some(6));
    }
}

/// One echo in the echo modes (the receiver's); no start on a pulse that comes in the same event as the receiver's
#[test]
fn two_edges_are_one_echo() {
    for mode in ECHOES {
        let mut board = Board::in_mode(mode, PINS_1X, BOTH);
        board.write(3, 0);
        board.low(IP4);
        assert!(
            board.give(Event::Pins(0xF7)).txda,
            "IP3 falls, IP4 rises, RxD is high"
        );
        board.low(IP4);
        board.high(IP3);
        assert!(!board.give(Event::Pins(0xB7)).txda, "and RxD is low");
    }
}

/// "no character or break starts"; a write goes to the holding place if the transmitter is enabled, as usual, and
/// waits there, and It is sent after the return to a mode that sends
#[test]
fn no_character_starts() {
    for mode in ECHOES {
        let mut board = Board::in_mode(mode, PINS_1X, BOTH);
        board.write(3, 1);
        board.write(3, 85);
        assert_eq!(board.sends(40), "1".repeat(40));
        board.to(NORMAL);
        assert_eq!(board.sr() & 12, 0, "it is held");
        assert_eq!(board.sends(12), "010101010111");
        board.to(mode);
        board.command(DISABLE_TRANSMITTER);
        board.write(3, 85);
        board.command(ENABLE_TRANSMITTER);
        board.to(NORMAL);
        assert_eq!(board.sr() & 12, 12, "written while disabled");
    }
}

/// "no character or break starts"; the command asks for the break as usual (if the transmitter is enabled), and it
/// does not begin while the mode lasts, after a held character that can start
#[test]
fn no_break_starts() {
    for mode in ECHOES {
        let mut board = Board::in_mode(mode, PINS_1X, BOTH);
        board.command(START_BREAK);
        assert_eq!(board.sends(40), "1".repeat(40));
        board.write(3, 255);
        board.to(NORMAL);
        assert_eq!(board.sends(15), "011111111100000");
        let mut board = Board::in_mode(mode, PINS_1X, ENABLE_RECEIVER);
        board.command(START_BREAK);
        board.command(ENABLE_TRANSMITTER);
        board.to(NORMAL);
        assert_eq!(board.sends(5), "11111", "asked while disabled");
    }
}

/// The mode change has dropped the break that was being sent, so start break asks for a new one .
#[test]
fn a_break_may_be_asked_after_a_dropped_one() {
    for mode in ECHOES {
        let mut board = Board::in_mode(NORMAL, PINS_1X, BOTH);
        board.command(START_BREAK);
        board.sends(3);
        board.to(mode);
        board.command(START_BREAK);
        board.to(NORMAL);
        assert_eq!(board.sends(3), "000");
    }
}

/// Stop break, disable and reset drop an asked break, as ever .
#[test]
fn an_asked_break_is_dropped_as_ever() {
    for command in [STOP_BREAK, DISABLE_TRANSMITTER, RESET_TRANSMITTER] {
        let mut board = Board::in_mode(ECHO, PINS_1X, BOTH);
        board.command(START_BREAK);
        board.command(command);
        board.command(ENABLE_TRANSMITTER);
        board.to(NORMAL);
        assert_eq!(board.sends(5), "11111");
    }
}

/// "(high while disabled)"; disable receiver and reset receiver raise TxD in that event; enabling leaves it high
/// until the next receiver pulse (the level echoed before the disable does not come back)
#[test]
fn high_while_disabled() {
    for (mode, command) in echoes_with([DISABLE_RECEIVER, RESET_RECEIVER]) {
        let mut board = Board::in_mode(mode, PINS_1X, ENABLE_RECEIVER);
        assert!(!echo(&mut board, false));
        assert!(board.command(command).txda);
        assert!(echo(&mut board, false), "disabled");
        assert!(board.command(ENABLE_RECEIVER).txda);
        assert!(!echo(&mut board, false));
    }
}

/// Bits 6-4 first, the receiver is disabled, TxD is high, and it stays so until the receiver's next pulse; Enabling
/// one that is enabled changes nothing, TxD neither.
#[test]
fn reset_receiver_and_enable_raises_the_echo() {
    for mode in ECHOES {
        let mut board = Board::in_mode(mode, PINS_1X, ENABLE_RECEIVER);
        assert!(!echo(&mut board, false));
        assert!(!board.command(ENABLE_RECEIVER).txda);
        assert!(board.command(RESET_RECEIVER | ENABLE_RECEIVER).txda);
        assert!(board.low(IP4).txda);
        assert!(!board.high(IP4).txda);
    }
}

/// Reset transmitter: TxD goes high at once and takes the sampled level again at the receiver's next pulse; Disable
/// transmitter and stop break leave TxD as it is. The transmitter's enable has no part in the echo.
#[test]
fn reset_transmitter_raises_the_echo() {
    for mode in ECHOES {
        let mut board = Board::in_mode(mode, PINS_1X, BOTH);
        assert!(!echo(&mut board, false));
        assert!(board.command(RESET_TRANSMITTER).txda);
        assert!(!echo(&mut board, false));
        let transmitters = [
            ENABLE_TRANSMITTER,
            START_BREAK,
            STOP_BREAK,
            DISABLE_TRANSMITTER,
        ];
        assert_eq!(after_each(&mut board, &transmitters), "0000");
        let others = [POINTER_TO_MR1, CLEAR_ERRORS, CLEAR_BREAK_CHANGE];
        assert_eq!(after_each(&mut board, &others), "000");
        assert!(board.command(RESET_TRANSMITTER | BOTH).txda);
    }
}

/// In normal mode and local loopback the receiver's commands leave TxD alone.
#[test]
fn receiver_commands_leave_txd_alone_in_normal_mode() {
    let commands = [ENABLE_RECEIVER, DISABLE_RECEIVER, RESET_RECEIVER];
    let mut board = Board::in_mode(NORMAL, PINS_1X, BOTH);
    board.write(3, 0);
    board.sends(3);
    assert_eq!(after_each(&mut board, &commands), "000");
    let mut board = Board::in_mode(LOCAL, PINS_1X, BOTH);
    board.write(3, 0);
    board.sends(3);
    assert_eq!(after_each(&mut board, &commands), "111");
}

/// Automatic echo: "the receiver works as usual"
#[test]
fn the_receiver_works_as_usual() {
    let mut board = Board::in_mode(ECHO, PINS_1X, ENABLE_RECEIVER);
    board.receive_bytes(&[1, 2, 3, 4]);
    assert_eq!(board.sr(), 3);
    board.receive(1, "10");
    assert_eq!(board.sr(), 19);
    board.receive(1, "101000001");
    assert_eq!([(); 4].map(|()| board.read(3)), [1, 2, 3, 5]);
    board.receive(1, "1 0 00000000 0");
    assert!(board.break_change());
    assert_eq!(board.sr(), BREAK | OVERRUN | RXRDY);
    let mut board = Board::in_mode(ECHO, 0xEF, ENABLE_RECEIVER);
    board.receive(16, "1 0 10101100 1");
    assert_eq!(
        (board.sr(), board.read(3)),
        (RXRDY, 0x35),
        "16X by bits 7-4"
    );
}

/// "TxRDY and TxEMT read 0"; TxRDY is one bit wherever it shows: SR 3-2, ISR bits 0 and 4, hence IRQ, and OP6, OP7
/// (which go high); in remote loopback too
#[test]
fn txrdy_and_txemt_read_0() {
    for mode in ECHOES {
        let mut board = Board::in_mode(NORMAL, PINS_1X, ENABLE_TRANSMITTER);
        board.write(5, 0x01);
        board.write(13, 0x40);
        assert_eq!(
            (board.sr(), board.isr(), board.lines().irq, board.lines().op),
            (12, 1, true, 0xBF)
        );
        // In that event; an acknowledge right after may be refused
        let seen = board.to(mode);
        assert_eq!((seen.irq, seen.op), (false, 0xFF));
        assert_eq!(board.give(Event::Acknowledge).number, 6);
        assert_eq!((board.sr(), board.isr()), (0, 0));
        let seen = board.to(LOCAL);
        assert_eq!((seen.irq, seen.op), (true, 0xBF));
        assert_eq!(board.give(Event::Acknowledge).number, 0);
        assert_eq!((board.sr(), board.isr()), (12, 1));
    }
}

/// The same of B: ISR bit 4 and OP7.
#[test]
fn txrdy_of_b_reads_0() {
    for mode in ECHOES {
        let mut board = Board::fresh();
        board.write(8, 0x13);
        board.write(10, ENABLE_TRANSMITTER);
        board.write(13, 0x80);
        assert_eq!(
            (board.read(9), board.isr(), board.lines().op),
            (12, 0x10, 0x7F)
        );
        assert_eq!(board.write(8, mode).op, 0xFF);
        assert_eq!((board.read(9), board.isr()), (0, 0));
    }
}
