//! Order 6: "It stops before a refused event and answers the length (0 if refused)." "Refusals, in this order: 1, 9 for
//! a longer list, 8 for short space, which then stays."

use super::board::*;
use super::dumping::{text, RESET_OP0, SET_OP0, UNWRITTEN};
use crate::{Dumped, Event};

/// A register above 15, a read of none, a command with 11, a setting not modelled, an acknowledge without IRQ.
const REFUSED: [Event; 5] = [
    Event::Read(255),
    Event::Read(10),
    Event::Write(2, 0x03),
    Event::Write(13, 0x01),
    Event::Acknowledge,
];

fn refused(number: u8) -> Dumped {
    Dumped { number, length: 0 }
}

/// The call is accepted, and the text is that of the list cut before the event, wherever it stands.
#[test]
fn it_stops_before_a_refused_event() {
    let events = [Event::Tick, SET_OP0, Event::Tick, RESET_OP0, Event::Tick];
    for event in REFUSED {
        for cut in 0..=events.len() {
            let with = [&events[..cut], &[event], &events[cut..]].concat();
            let before = text(&mut Board::fresh(), &events[..cut]);
            assert_eq!(text(&mut Board::fresh(), &with), before, "{event:?} at {cut}");
        }
    }
}

/// The second refused one is not reached, and what stands between the two is not written.
#[test]
fn the_first_of_two() {
    let events = [Event::Tick, Event::Read(2), Event::Tick, SET_OP0, Event::Read(2)];
    assert_eq!(text(&mut Board::fresh(), &events).len(), 372);
}

/// An acknowledge is accepted while IRQ is asserted: what follows it is written.
#[test]
fn an_acknowledge_while_irq_is_asserted() {
    let asserted = [Event::Write(5, 0x01), Event::Write(2, 0x04), Event::Acknowledge, Event::Tick, SET_OP0];
    assert!(text(&mut Board::fresh(), &asserted).ends_with("#271\n0$\n"));
}

/// Space exactly as long as the text is enough; one byte less, or none, is 8 and stays.
#[test]
fn short_space() {
    let events = [Event::Tick, SET_OP0];
    let length = 372 + "#271\n0$\n".len();
    let mut board = Board::fresh();
    for size in [0, 1, 336, 372, length - 1] {
        let mut space = vec![UNWRITTEN; size];
        assert_eq!(board.chip().dump(&events, &mut space), refused(8), "{size}");
        assert!(space.iter().all(|byte| *byte == UNWRITTEN));
    }
    let mut space = vec![UNWRITTEN; length + 1];
    let dumped = board.chip().dump(&events, &mut space[..length]);
    assert_eq!(dumped, Dumped { number: 0, length });
    assert_eq!(space[length - 3..], [b'0', b'$', b'\n', UNWRITTEN]);
    assert_eq!(board.chip().dump(&[], &mut space[..371]), refused(8));
    assert_eq!(board.chip().dump(&[], &mut space[..372]).length, 372);
}

/// What is short goes by the text of the list cut at the refused event, and not by the whole list's.
#[test]
fn short_space_goes_by_what_is_written() {
    let events = [Event::Tick, Event::Read(2), SET_OP0, Event::Tick];
    let mut space = [UNWRITTEN; 372];
    assert_eq!(Board::fresh().chip().dump(&events, &mut space), Dumped { number: 0, length: 372 });
    assert_eq!(Board::fresh().chip().dump(&events, &mut space[..371]), refused(8));
}

/// "a list of up to 1,000,000 events": all are counted, where the first would be refused too.
#[test]
fn long_lists() {
    let mut space = [UNWRITTEN; 372];
    for first in [Event::Tick, Event::Read(2)] {
        let mut events = vec![Event::Tick; 1_000_001];
        events[0] = first;
        assert_eq!(Board::fresh().chip().dump(&events, &mut space), refused(9));
        assert!(space.iter().all(|byte| *byte == UNWRITTEN));
        assert_eq!(Board::fresh().chip().dump(&events, &mut []), refused(9), "9 comes before 8");
        let accepted = Board::fresh().chip().dump(&events[..1_000_000], &mut space.clone());
        assert_eq!(accepted, Dumped { number: 0, length: 372 });
    }
}
