//! Readings on the counter/timer.

use super::board::*;
use crate::Event;

const COUNTER_ON_IP2: u8 = 0x00;
const COUNTER_ON_TXCA: u8 = 0x10;
const COUNTER_ON_TXCB: u8 = 0x20;
const COUNTER_ON_TICKS_16: u8 = 0x30;
const TIMER_ON_IP2: u8 = 0x40;
const TIMER_ON_IP2_16: u8 = 0x50;
const TIMER_ON_TICKS: u8 = 0x60;
const TIMER_ON_TICKS_16: u8 = 0x70;
/// OPCR: the timer output on OP3, or in counter mode the complement of ISR bit 3.
const OP3_TIMER: u8 = 0x04;

/// A board whose counter/timer was started with a preload.
fn started(acr: u8, preload: u16) -> Board {
    let mut board = Board::fresh();
    board.preload(preload);
    board.write(4, acr);
    board.start_counter();
    board
}

fn rising_ip2(board: &mut Board) {
    board.low(IP2);
    board.high(IP2);
}

fn op3(board: &mut Board) -> bool {
    board.lines().op & 8 != 0
}

/// Neither a start nor a change of ACR clears ISR bit 3; stop does.
#[test]
fn isr_bit_3() {
    let mut board = started(TIMER_ON_TICKS, 1);
    board.ticks(2);
    board.start_counter();
    assert!(board.isr_bit_3());
    board.write(4, COUNTER_ON_TICKS_16);
    assert!(board.isr_bit_3());
    board.start_counter();
    assert!(board.isr_bit_3());
    board.stop_counter();
    assert!(!board.isr_bit_3());
}

/// The counter from a 1X transmitter clock: each 16th 16X pulse since the CSR write, or each
/// 1X pulse; pulses count with the transmitter disabled.
#[test]
fn counter_on_a_transmitter_clock() {
    for (acr, csr_register, pin) in [(COUNTER_ON_TXCA, 1, IP3), (COUNTER_ON_TXCB, 9, IP5)] {
        let pulse = |board: &mut Board, pulses| {
            for _ in 0..pulses {
                board.high(pin);
                board.low(pin);
            }
        };
        let mut board = started(acr, 100);
        board.write(csr_register, PINS_16X);
        pulse(&mut board, 10);
        board.write(csr_register + 1, RESET_TRANSMITTER | ENABLE_TRANSMITTER);
        board.start_counter();
        pulse(&mut board, 5);
        assert_eq!(board.count(), 100);
        pulse(&mut board, 1);
        assert_eq!(board.count(), 99);
        pulse(&mut board, 15);
        board.write(csr_register, PINS_16X);
        pulse(&mut board, 15);
        assert_eq!(board.count(), 99);
        board.write(csr_register, PINS_1X);
        pulse(&mut board, 3);
        assert_eq!(board.count(), 96);
        board.write(csr_register, 0x0C);
        board.ticks(6 * 16 * 2);
        assert_eq!(board.count(), 94);
        board.write(csr_register, 0x0D);
        board.ticks(6 * 16 * 2);
        assert_eq!(board.count(), 94, "no toggle in counter mode");
    }
}

/// Timer modes have no such source, and each channel's clock is its own counter mode's only.
#[test]
fn other_modes() {
    for acr in [COUNTER_ON_IP2, COUNTER_ON_TXCB, TIMER_ON_IP2] {
        let mut board = started(acr, 100);
        board.write(1, PINS_1X);
        board.sends(5);
        assert_eq!(board.count(), 100);
    }
}

/// A read of 6, 7 shows the count as it stands, in timer modes and while running.
#[test]
fn count_shows() {
    let mut board = started(TIMER_ON_TICKS, 0x0203);
    board.ticks(4);
    assert_eq!((board.read(6), board.read(7)), (0x01, 0xFF));
}

/// Loaded 0 does not reach 0; terminal after 65,536, and a counter that goes on reaches 0 again.
#[test]
fn preload_0_and_the_wrap() {
    let mut board = started(COUNTER_ON_TICKS_16, 0);
    assert!(!board.isr_bit_3());
    board.ticks(16);
    assert_eq!((board.count(), board.isr_bit_3()), (65535, false));
    board.ticks(65_535 * 16 - 1);
    assert!(!board.isr_bit_3());
    board.ticks(1);
    assert!(board.isr_bit_3());

    let mut board = started(COUNTER_ON_TICKS_16, 1);
    board.ticks(16);
    assert!(board.isr_bit_3());
    board.ticks(16);
    assert_eq!(board.count(), 65535, "counting goes on");
    let mut board = started(TIMER_ON_TICKS, 0);
    assert_eq!(board.ticks_until(200_000, Board::isr_bit_3), Some(131_072));
}

/// A change between two counter modes halts and reloads; between two timer modes it runs on.
#[test]
fn change_of_mode() {
    let mut board = started(COUNTER_ON_TICKS_16, 9);
    board.ticks(16);
    board.write(4, COUNTER_ON_IP2);
    assert_eq!(board.count(), 9);
    rising_ip2(&mut board);
    assert_eq!(board.count(), 9, "halted");
    board.write(13, OP3_TIMER);
    board.write(4, TIMER_ON_TICKS);
    board.ticks(12);
    assert!(!op3(&mut board));
    board.write(4, TIMER_ON_IP2);
    assert_eq!((board.count(), op3(&mut board)), (9, true));
    assert!(!board.isr_bit_3(), "setting no bit");
    rising_ip2(&mut board);
    assert_eq!(board.count(), 8, "runs without a start");
}

/// An ACR write that leaves bits 6-4 as they are does not reload; one that changes both does both.
#[test]
fn acr_writes() {
    let mut board = started(TIMER_ON_TICKS, 9);
    board.ticks(4);
    board.write(4, TIMER_ON_TICKS | 0x8F);
    assert_eq!(board.count(), 5);
    board.ticks(1);
    board.write(4, TIMER_ON_TICKS_16);
    assert_eq!(board.count(), 9);
}

/// Both /16 phases run in every mode, and only a chip reset sets them to 0.
#[test]
fn sixteenths() {
    let mut board = Board::fresh();
    board.ticks(5);
    board.preload(1);
    board.write(4, COUNTER_ON_TICKS_16);
    board.start_counter();
    assert_eq!(board.ticks_until(100, Board::isr_bit_3), Some(11));
    board.ticks(3);
    board.give(Event::ChipReset);
    board.preload(1);
    board.write(4, COUNTER_ON_TICKS_16);
    board.start_counter();
    assert_eq!(board.ticks_until(100, Board::isr_bit_3), Some(16));

    let mut board = Board::fresh();
    for _ in 0..5 {
        rising_ip2(&mut board);
    }
    board.preload(1);
    board.write(4, TIMER_ON_IP2_16);
    board.start_counter();
    let edges = board.times_until(100, rising_ip2, Board::isr_bit_3);
    assert_eq!(edges, Some(11 + 16));
}

/// Preload writes do not touch the count; they act at the next load.
#[test]
fn preload() {
    let mut board = started(TIMER_ON_TICKS, 3);
    board.ticks(1);
    board.preload(0x0105);
    assert_eq!(board.count(), 2);
    board.ticks(2);
    assert_eq!(board.count(), 0x0105);
}

/// In timer modes stop clears the bit only; in counter modes it halts and the count stays.
#[test]
fn stop() {
    let mut board = started(TIMER_ON_TICKS, 2);
    board.write(13, OP3_TIMER);
    board.ticks(6);
    board.stop_counter();
    assert_eq!((board.isr_bit_3(), op3(&mut board)), (false, false));
    assert_eq!(board.ticks_until(100, Board::isr_bit_3), Some(2));

    let mut board = started(COUNTER_ON_TICKS_16, 5);
    board.ticks(32);
    board.stop_counter();
    board.ticks(100);
    assert_eq!(board.count(), 3);
}

/// OP3 goes by ACR bit 6 as it stands; the output bits beneath are still altered.
#[test]
fn op3_shows_the_counter_timer() {
    let mut board = started(TIMER_ON_TICKS, 2);
    board.write(13, OP3_TIMER);
    board.write(14, 0xFF);
    assert_eq!(board.lines().op, 0x08);
    board.ticks(2);
    assert_eq!(board.lines().op, 0x00);
    board.ticks(2);
    assert_eq!(board.lines().op, 0x08);
    board.write(4, COUNTER_ON_TICKS_16);
    assert_eq!(board.lines().op, 0x00, "ISR bit 3 is set");
    board.stop_counter();
    assert_eq!(board.lines().op, 0x08);
    board.write(13, 0);
    assert_eq!(board.lines().op, 0x00);
    board.write(15, 0x0F);
    assert_eq!(board.lines().op, 0x0F);
}

/// A start of a running counter reloads it and it runs on.
#[test]
fn start_again() {
    let mut board = started(COUNTER_ON_TICKS_16, 5);
    board.ticks(32);
    board.start_counter();
    assert_eq!(board.count(), 5);
    board.ticks(16);
    assert_eq!(board.count(), 4);
}

/// Order 4: a start sets the bit exactly where it takes a timer's output from low to high, and clears it nowhere. The
/// count is the preload again, so the next toggle to high comes two whole countdowns later.
#[test]
fn a_start_from_low_sets_the_bit() {
    let mut board = started(TIMER_ON_TICKS, 5);
    board.write(5, 0x08);
    board.ticks(7);
    board.start_counter();
    assert_eq!((board.isr_bit_3(), board.lines().irq, board.count()), (true, true, 5));
    board.start_counter();
    assert!(board.isr_bit_3(), "a start from high does not clear it");
    board.stop_counter();
    board.start_counter();
    assert!(!board.isr_bit_3(), "nor set it");
    assert_eq!(board.ticks_until(100, Board::isr_bit_3), Some(10));
}

/// In counter modes a start sets nothing, and a change of ACR 6-4 sets nothing though it raises the output.
#[test]
fn no_other_rise_sets_the_bit() {
    let mut board = started(TIMER_ON_TICKS, 5);
    board.ticks(7);
    board.write(4, COUNTER_ON_TICKS_16);
    assert!(!board.isr_bit_3());
    board.start_counter();
    assert!(!board.isr_bit_3());
}
