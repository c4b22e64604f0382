//! Readings on the clocks of the sides, and the order in an event.

use super::board::*;
use crate::Event;

/// Ticks until TxDA is low, with a character held.
fn ticks_until_start(board: &mut Board) -> Option<u32> {
    board.ticks_until(5000, |board| !board.lines().txda)
}

/// A's transmitter at a code, with a character held.
fn holding(acr: u8, code: u8) -> Board {
    let mut board = Board::fresh();
    board.write(4, acr);
    board.mode(0x13, 7);
    board.write(1, code);
    board.command(ENABLE_TRANSMITTER);
    board.write(3, 0);
    board
}

/// "Ticks per 16X pulse, codes 0 to 12"
#[test]
fn ticks_per_pulse() {
    let clear = [
        4608, 2096, 1712, 1152, 768, 384, 192, 220, 96, 48, 32, 24, 6,
    ];
    let set = [
        3072, 2096, 1712, 1536, 768, 384, 192, 115, 96, 48, 128, 24, 12,
    ];
    for (acr, periods) in [(0x00, clear), (0x80, set)] {
        for (code, period) in (0..).zip(periods) {
            let mut board = holding(acr, code);
            assert_eq!(ticks_until_start(&mut board), Some(period));
            let start = board.ticks_until(5000 * 200, |board| board.sr() & 8 != 0);
            assert_eq!(start, Some(160 * period));
        }
    }
}

/// The new levels are in force before everything, and the flags are set when an edge is a clock too.
#[test]
fn levels_first() {
    let mut board = Board::on_pins(PINS_1X, ENABLE_TRANSMITTER | ENABLE_RECEIVER);
    board.mode(0x13, 0x17);
    board.write(3, 0);
    board.read(4);
    assert!(!board.low(IP3 | IP0).txda, "CTS at its new level");
    assert_eq!(board.read(4), 0x96);

    board.low(IP4);
    board.high(IP4);
    for level in "0 01111111 1".chars().filter(|level| *level != ' ') {
        // RxD moves with the rising edge itself.
        board.low(IP4);
        let rxda = if level == '1' { RXDA } else { 0 };
        board.give(Event::Pins(IP4 | rxda));
    }
    assert_eq!(board.read(3), 254);
}

/// The timer's toggle to high pulses all sides on code 13 in the same event; a start gives no pulse.
#[test]
fn timer_clock() {
    let mut board = holding(0x60, 0xDD);
    board.preload(2);
    board.start_counter();
    assert_eq!(ticks_until_start(&mut board), Some(4));

    let mut board = holding(0x60, 0xDD);
    board.preload(5);
    board.start_counter();
    board.ticks(5);
    board.start_counter();
    assert!(board.lines().txda, "low to high by a start: no pulse");
    board.ticks(5);
    board.write(4, 0x70);
    assert!(board.lines().txda, "nor by a change of ACR");

    let mut board = holding(0x40, 0xDD);
    board.preload(1);
    board.start_counter();
    board.low(IP2);
    assert!(board.high(IP2).txda, "toggled to low");
    board.low(IP2);
    assert!(!board.high(IP2).txda, "toggled to high, in a pin event");
}

/// All four sides at once on code 13; none in counter mode.
#[test]
fn all_sides_on_the_timer() {
    let mut board = Board::fresh();
    for first in [0, 8] {
        board.write(first, 0x13);
        board.write(first + 1, 0xDD);
        board.write(first + 2, ENABLE_TRANSMITTER | ENABLE_RECEIVER);
        board.write(first + 3, 0);
    }
    board.preload(1);
    board.write(4, 0x30);
    board.start_counter();
    board.ticks(100);
    assert!(board.lines().txda, "counter mode");
    board.write(4, 0x60);
    board.ticks(2);
    let lines = board.lines();
    assert_eq!((lines.txda, lines.txdb), (false, false));
    board.low(RXDA | RXDB);
    board.ticks(2 * 152);
    assert_eq!([board.read(1) & 1, board.read(9) & 1], [0, 0]);
    board.ticks(2);
    assert_eq!([board.read(1) & 1, board.read(9) & 1], [1, 1]);
}

/// One pin event may pulse all four sides; ticks never pulse codes 14 and 15.
#[test]
fn one_pin_event_four_pulses() {
    let mut board = Board::fresh();
    for first in [0, 8] {
        board.write(first, 0x13);
        board.write(first + 1, PINS_1X);
        board.write(first + 2, ENABLE_TRANSMITTER | ENABLE_RECEIVER);
        board.write(first + 3, 0);
    }
    board.preload(100);
    board.start_counter();
    board.ticks(100);
    let before = |rxd| Event::Pins(IP3 | IP5 | rxd);
    let edges = |rxd| Event::Pins(IP4 | IP2 | rxd);
    board.give(before(RXDA | RXDB));
    let seen = board.give(edges(RXDA | RXDB));
    assert_eq!((seen.txda, seen.txdb, board.count()), (false, false, 99));
    for _ in 0..10 {
        board.give(before(0));
        board.give(edges(0));
    }
    assert_eq!([board.read(1) & 0x81, board.read(9) & 0x81], [0x81, 0x81]);
    assert_eq!(board.count(), 89);
}

/// Pin events never advance the dividers.
#[test]
fn pins_and_dividers() {
    let mut board = holding(0, 12);
    for _ in 0..20 {
        board.low(IP3 | IP4);
        board.high(IP3 | IP4);
    }
    assert_eq!(ticks_until_start(&mut board), Some(6));
}

/// A CSR write restarts the channel's phases with the same value too; an ACR write restarts all
/// four, only if bit 7 changes.
#[test]
fn restarts() {
    for (event, ticks_then) in [
        (Event::Write(1, 0xBB), 24),
        (Event::Write(1, 0x0B), 24),
        (Event::Write(9, 0xBB), 4),
        (Event::Write(4, 0x00), 4),
        (Event::Write(4, 0x7F), 4),
        (Event::Write(4, 0x80), 24),
        (Event::Read(14), 4),
        (Event::Write(2, ENABLE_TRANSMITTER), 4),
    ] {
        let mut board = holding(0, 0xBB);
        board.ticks(20);
        assert_eq!(board.give(event).number, 0);
        assert_eq!(ticks_until_start(&mut board), Some(ticks_then), "{event:?}");
    }
}

/// The dividers run with the sides disabled, from the chip reset (code 0).
#[test]
fn dividers_always_run() {
    let mut board = Board::fresh();
    board.ticks(4600);
    board.command(ENABLE_TRANSMITTER);
    board.write(3, 0);
    assert_eq!(ticks_until_start(&mut board), Some(8));
}
