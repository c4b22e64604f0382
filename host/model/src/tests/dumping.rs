//! Order 6: "a value change dump (IEEE 1364) .. TxDA, TxDB, IRQ as line level (asserted is 0) and OP0 to OP7, all
//! values at time 0, then only times with changes." What is written; dump_refusals.rs has what is refused.

use super::board::*;
use crate::dump::{time_of, HEADER};
use crate::{Dumped, Event};

/// Output bits are set and reset by writes of 14 and 15, and show on OP0 to OP7 as their complement.
pub const SET_OP0: Event = Event::Write(14, 0x01);
pub const RESET_OP0: Event = Event::Write(15, 0x01);

/// What no dump writes.
pub const UNWRITTEN: u8 = 0xa5;

/// The text of a dump that is accepted.
pub fn text(board: &mut Board, events: &[Event]) -> String {
    let mut space = vec![UNWRITTEN; 20_000];
    let Dumped { number, length } = board.chip().dump(events, &mut space);
    assert_eq!(number, 0);
    assert!(space[length..].iter().all(|byte| *byte == UNWRITTEN));
    String::from_utf8(space[..length].to_vec()).expect("it is ASCII")
}

/// What follows the lines of a fresh chip at time 0.
fn changes(events: &[Event]) -> String {
    let all = text(&mut Board::fresh(), events);
    let begun = format!("{HEADER}{ALL_HIGH}");
    all.strip_prefix(&begun).expect("nothing has changed at time 0").to_string()
}

/// "#0" and all eleven at 1: TxD high, IRQ not asserted, OP 255.
const ALL_HIGH: &str = "#0\n1!\n1\"\n1#\n1$\n1%\n1&\n1'\n1(\n1)\n1*\n1+\n";

fn ticks(count: usize) -> Vec<Event> {
    vec![Event::Tick; count]
}

/// "`$timescale 1 ns $end`, `$scope module duart $end`, eleven as `$var wire 1 ! TxDA $end` with codes ! to + in that
/// order, `$upscope $end`, `$enddefinitions $end`; then `#` with the time": 336 bytes before it, and 372 in all where
/// nothing happens.
#[test]
fn an_empty_list() {
    let text = text(&mut Board::fresh(), &[]);
    let names = ["TxDA", "TxDB", "IRQ", "OP0", "OP1", "OP2", "OP3", "OP4", "OP5", "OP6", "OP7"];
    let wires = names.iter().zip("!\"#$%&'()*+".chars());
    let wires: String = wires.map(|(name, code)| format!("$var wire 1 {code} {name} $end\n")).collect();
    let ends = "$upscope $end\n$enddefinitions $end\n";
    let header = format!("$timescale 1 ns $end\n$scope module duart $end\n{wires}{ends}");
    assert_eq!(header.len(), 336);
    assert_eq!((text.len(), text), (372, format!("{header}{ALL_HIGH}")));
}

/// Ticks in which nothing changes leave no trace, not at the end either.
#[test]
fn only_times_with_changes() {
    assert_eq!(changes(&ticks(2_000)), "");
    let events = [ticks(2), vec![SET_OP0], ticks(2_000)].concat();
    assert_eq!(changes(&events), "#542\n0$\n");
}

/// "Tick n, from 1, stands at the whole part of n x 625,000 / 2,304 ns."
#[test]
fn the_times_of_ticks() {
    assert_eq!([1, 2, 3, 4].map(time_of), [271, 542, 813, 1_085]);
    assert_eq!([288, 2_304].map(time_of), [78_125, 625_000]);
    assert_eq!(time_of(1_000_000), 271_267_361);
    for (count, time) in [(1, 271), (2, 542), (3, 813), (4, 1_085), (288, 78_125)] {
        let events = [ticks(count), vec![SET_OP0]].concat();
        assert_eq!(changes(&events), format!("#{time}\n0$\n"));
    }
}

/// A timer on ticks with a preload of 62,500, its output on OP3: the sixteenth toggle is in tick 1,000,000.
#[test]
fn the_last_tick_there_can_be() {
    let mut board = Board::fresh();
    board.preload(62_500);
    board.write(4, 0x60);
    board.write(13, 0x04);
    let text = text(&mut board, &ticks(1_000_000));
    assert_eq!(text.matches('#').count(), 1 + 1 + 16 + 1);
    assert!(text.contains("\n#16954210\n0'\n#33908420\n1'\n"));
    assert!(text.ends_with("1'\n#254313151\n0'\n#271267361\n1'\n"));
}

/// "IRQ as line level (asserted is 0)"
#[test]
fn irq_is_low_when_asserted() {
    let events = [Event::Tick, Event::Write(5, 0x01), Event::Write(2, 0x04), Event::Tick, Event::Write(5, 0)];
    assert_eq!(changes(&events), "#271\n0#\n#542\n1#\n");
    let mut board = Board::fresh();
    board.write(5, 0x01);
    board.command(ENABLE_TRANSMITTER);
    assert!(board.lines().irq);
    assert!(text(&mut board, &[]).contains("\n#0\n1!\n1\"\n0#\n1$\n"));
}

/// Events before the first tick share time 0, at which all values stand whatever they are.
#[test]
fn events_before_the_first_tick_stand_at_time_0() {
    let events = [Event::Write(14, 0xff), Event::Write(15, 0x80), Event::Tick, RESET_OP0];
    let zero = "#0\n1!\n1\"\n1#\n0$\n0%\n0&\n0'\n0(\n0)\n0*\n1+\n";
    let written = text(&mut Board::fresh(), &events);
    assert_eq!(written, format!("{HEADER}{zero}#271\n1$\n"));
}

/// "Events without a tick share the time of the last one": with what the tick itself changes, in the order of the codes.
#[test]
fn a_write_after_a_tick_stands_at_its_time() {
    assert_eq!(changes(&[Event::Tick, SET_OP0, Event::Tick]), "#271\n0$\n");
    let mut board = Board::fresh();
    board.write(1, 0x0c);
    board.command(ENABLE_TRANSMITTER);
    board.write(3, 0x00);
    let events = [ticks(6), vec![Event::Write(14, 0x80), Event::Write(5, 0x01)], ticks(6)].concat();
    assert!(text(&mut board, &events).ends_with("\n#1627\n0!\n0#\n0+\n"));
}

/// "at each time only the last values count, written where they differ from those written before."
#[test]
fn what_is_taken_back_at_one_time_leaves_no_trace() {
    let back = [Event::Tick, SET_OP0, RESET_OP0, Event::Tick];
    assert_eq!(changes(&back), "");
    let beside = [Event::Tick, Event::Write(14, 0x03), RESET_OP0, Event::Tick];
    assert_eq!(changes(&beside), "#271\n0%\n");
    let twice = [Event::Tick, SET_OP0, RESET_OP0, SET_OP0, Event::Tick, SET_OP0];
    assert_eq!(changes(&twice), "#271\n0$\n");
    let first = [SET_OP0, RESET_OP0, Event::Tick];
    assert_eq!(changes(&first), "");
}

/// What a tick changes and a write after it takes back leaves none either.
#[test]
fn a_tick_taken_back() {
    let mut board = Board::fresh();
    board.preload(1);
    board.write(4, 0x60);
    board.write(13, 0x04);
    // the output falls in the first tick; a start raises it again
    let events = [Event::Tick, Event::Read(14), Event::Tick, Event::Tick];
    assert!(text(&mut board, &events).ends_with("1+\n#542\n0'\n#813\n1'\n"));
}

/// Each output bit is its own wire, and those of one time stand in the order of the codes.
#[test]
fn the_order_of_the_wires() {
    let one_by_one: Vec<Event> = (0..8).flat_map(|bit| [Event::Tick, Event::Write(14, 1 << bit)]).collect();
    let lines = "#271\n0$\n#542\n0%\n#813\n0&\n#1085\n0'\n#1356\n0(\n#1627\n0)\n#1898\n0*\n#2170\n0+\n";
    assert_eq!(changes(&one_by_one), lines);
    let at_once = [Event::Tick, Event::Write(14, 0xf0), Event::Write(14, 0x0f)];
    assert_eq!(changes(&at_once), "#271\n0$\n0%\n0&\n0'\n0(\n0)\n0*\n0+\n");
}

/// A chip reset is an event without a tick: it has the last tick's time, and tick n goes on from there.
#[test]
fn a_chip_reset_among_them() {
    let events = [Event::Tick, SET_OP0, Event::Tick, Event::ChipReset, Event::Tick, SET_OP0];
    assert_eq!(changes(&events), "#271\n0$\n#542\n1$\n#813\n0$\n");
}

/// Ticks that the chip took before the list do not count, and the chip is as it was.
#[test]
fn ticks_of_the_list_alone() {
    let mut board = Board::fresh();
    board.ticks(1_000);
    let before = board.shows();
    let events = [Event::Tick, SET_OP0];
    assert!(text(&mut board, &events).ends_with("#271\n0$\n"));
    assert_eq!(board.shows(), before);
}

/// Case 4's character on both channels, from its first pulse at tick 24 on: a level of 384 ticks each.
#[test]
fn a_character_on_both_channels() {
    let mut events = Vec::new();
    for base in [0, 8] {
        let writes = [(0, 19), (0, 7), (1, 0xbb), (2, 0x04), (3, 85)];
        events.extend(writes.map(|(register, byte)| Event::Write(base + register, byte)));
    }
    events.extend(ticks(24 + 3_840));
    let levels = (0..10).map(|bit| (time_of(24 + 384 * bit), bit % 2));
    let lines: String = levels.map(|(time, level)| format!("#{time}\n{level}!\n{level}\"\n")).collect();
    assert!(lines.starts_with("#6510\n0!\n0\"\n#110677\n1!\n1\"\n#214843\n"));
    assert_eq!(changes(&events), lines);
}
