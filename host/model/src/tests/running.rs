//! Order 5: "A companion runs ticks until IRQ is asserted or a budget of up to 1,000,000 is spent, and reports how
//! many ticks it took: zero if IRQ is asserted already, otherwise the number of single ticks to that state."

use super::board::*;
use crate::{Event, Ran};

/// IMR: the counter/timer alone.
const COUNTER: u8 = 0x08;

/// Case 10's counter, on ticks/16 with preload 3: it asks for an interrupt after 48 ticks.
fn counting() -> Board {
    let mut board = Board::fresh();
    board.preload(3);
    board.write(4, 0x30);
    board.write(5, COUNTER);
    board.start_counter();
    board
}

fn run(board: &mut Board, budget: u32) -> Ran {
    board.chip().run(budget)
}

/// The number, the ticks and IRQ.
fn end(ran: Ran) -> (u8, u32, bool) {
    (ran.number, ran.ticks, ran.irq)
}

/// The lines are those that an event which changes nothing shows.
fn has_the_lines(ran: Ran, board: &mut Board) -> bool {
    let lines = board.lines();
    (ran.irq, ran.txda, ran.txdb, ran.op) == (lines.irq, lines.txda, lines.txdb, lines.op)
}

#[test]
fn stops_where_irq_is_asserted() {
    let (mut board, mut single) = (counting(), counting());
    let ran = run(&mut board, 1_000_000);
    assert_eq!(end(ran), (0, 48, true));
    assert!(has_the_lines(ran, &mut board));
    single.ticks(48);
    assert_eq!(board.shows(), single.shows());
}

/// IRQ in the last tick of the budget, and one tick too few for it: the ticks are the budget, and the line tells.
#[test]
fn in_the_last_tick_or_not_at_all() {
    assert_eq!(end(run(&mut counting(), 48)), (0, 48, true));
    let mut board = counting();
    assert_eq!(end(run(&mut board, 47)), (0, 47, false));
    assert_eq!(end(run(&mut board, 9)), (0, 1, true));
    assert_eq!(end(run(&mut counting(), 49)), (0, 48, true));
}

/// "zero if IRQ is asserted already", whatever the budget, and nothing moves.
#[test]
fn asserted_already() {
    let mut board = counting();
    board.ticks(50);
    let before = board.shows();
    for budget in [0, 1, 48, 1_000_000] {
        let ran = run(&mut board, budget);
        assert_eq!(end(ran), (0, 0, true));
        assert!(has_the_lines(ran, &mut board));
    }
    assert_eq!(board.shows(), before);
}

#[test]
fn no_budget() {
    let mut board = counting();
    assert_eq!(end(run(&mut board, 0)), (0, 0, false));
    assert_eq!(board.shows(), counting().shows());
}

/// An acknowledge withdraws nothing; where the bit is cleared and the counter started again, the next wait is as the first.
#[test]
fn goes_on_after_it() {
    let mut board = counting();
    run(&mut board, 1_000_000);
    assert_eq!(board.give(Event::Acknowledge).number, 0);
    assert_eq!(end(run(&mut board, 100)), (0, 0, true));
    board.stop_counter();
    board.start_counter();
    assert_eq!(end(run(&mut board, 100)), (0, 48, true));
}

/// 1,000,000 is allowed, and nothing is skipped: 217 periods of 4,608 ticks, and 64 ticks.
#[test]
fn the_whole_budget() {
    let mut board = Board::fresh();
    board.command(ENABLE_TRANSMITTER);
    let ran = run(&mut board, 1_000_000);
    assert_eq!(end(ran), (0, 1_000_000, false));
    assert!(has_the_lines(ran, &mut board));
    board.write(3, 0);
    let starts = board.ticks_until(5_000, |board| !board.txda());
    assert_eq!(starts, Some(218 * 4_608 - 1_000_000));
}

/// "9 for a list or budget over its limit", with the lines as the state drives them.
#[test]
fn a_budget_over_its_limit() {
    for budget in [1_000_001, 2_000_000, u32::MAX] {
        let mut board = counting();
        board.write(14, 0x81);
        let before = board.shows();
        let ran = run(&mut board, budget);
        assert_eq!(end(ran), (9, 0, false));
        assert_eq!((ran.txda, ran.txdb, ran.op), (true, true, 0x7e));
        assert_eq!(board.shows(), before);
    }
}

/// It is refused where IRQ is asserted already too.
#[test]
fn over_its_limit_with_irq_asserted() {
    let mut board = counting();
    board.ticks(48);
    let ran = run(&mut board, 1_000_001);
    assert_eq!(end(ran), (9, 0, true));
    assert!(has_the_lines(ran, &mut board));
}

/// Both channels in local loopback at 38,400 bits a second, sending.
fn looping(imr: u8) -> Board {
    let mut board = Board::fresh();
    board.write(5, imr);
    for base in [0, 8] {
        for (register, byte) in [(0, 0x13), (0, LOCAL), (1, 0xCC), (2, 0x05)] {
            board.write(base + register, byte);
        }
    }
    board.ticks(6);
    for base in [0, 8] {
        board.write(base + 3, 0x5A);
    }
    board
}

/// Whatever asserts IRQ: TxRDY with the start of the character, and its arrival at the stop's ninth pulse.
#[test]
fn whatever_asserts_it() {
    for (imr, ticks) in [(0x01, 6), (0x10, 6), (0x02, 153 * 6), (0x20, 153 * 6)] {
        let (mut board, mut single) = (looping(imr), looping(imr));
        assert_eq!(end(run(&mut board, 2_000)), (0, ticks, true), "{imr}");
        single.ticks(ticks);
        assert_eq!(board.shows(), single.shows());
    }
}

/// A looped break is told of when it has come and when it has ended, of each channel.
#[test]
fn breaks_assert_it() {
    for (base, imr) in [(0, 0x04), (8, 0x40)] {
        let mut board = looping(imr);
        board.ticks(1_000);
        board.write(base + 2, START_BREAK);
        assert!(run(&mut board, 5_000).irq, "{imr}");
        board.write(base + 2, CLEAR_BREAK_CHANGE);
        assert_eq!(end(run(&mut board, 5_000)), (0, 5_000, false));
        board.write(base + 2, STOP_BREAK);
        assert!(run(&mut board, 5_000).irq, "{imr}");
    }
}

/// Cut anywhere, the pieces are the whole: phases and sixteenths stay where single ticks leave them.
#[test]
fn cut_anywhere() {
    let mut single = looping(0);
    single.ticks(1_500);
    for piece in [1, 5, 7, 250, 1_500] {
        let mut board = looping(0);
        let mut left = 1_500;
        while left > 0 {
            left -= run(&mut board, piece.min(left)).ticks;
        }
        assert_eq!(board.shows(), single.shows(), "{piece}");
    }
}
