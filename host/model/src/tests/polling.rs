//! Order 5: "one call over a lent list of event records, up to 4,096, with the answers, less the states, written
//! to a second lent list, equal to the same events one by one; the last state is returned."

use super::board::*;
use crate::{Event, Polled, Seen};

/// What no event is answered: a place that holds it was not written.
const UNWRITTEN: Seen = Seen {
    number: 99,
    data: 98,
    fresh: true,
    irq: true,
    txda: false,
    txdb: false,
    op: 97,
};

/// A register that is above 15, a read of none, a command with 11, a setting not modelled; the last is refused
/// while IRQ is not asserted.
const REFUSED: [(Event, u8); 5] = [
    (Event::Read(255), 2),
    (Event::Read(10), 3),
    (Event::Write(2, 0x03), 4),
    (Event::Write(13, 0x01), 5),
    (Event::Acknowledge, 6),
];

/// Channel A has received 7 and 8, on its pins at 1X, and can send.
fn receiving() -> Board {
    let mut board = Board::on_pins(PINS_1X, ENABLE_RECEIVER | ENABLE_TRANSMITTER);
    board.receive_bytes(&[7, 8]);
    board
}

/// Events of all six kinds, all accepted: IRQ is asserted by the received characters, and withdrawn by their
/// reads.
fn accepted() -> Vec<Event> {
    vec![
        Event::Write(5, 0x02),
        Event::Acknowledge,
        Event::Read(1),
        Event::Read(3),
        Event::Pins(0x15),
        Event::Read(3),
        Event::Read(3),
        Event::Tick,
        Event::Write(3, 0x55),
        Event::Pins(0x1d),
        Event::Pins(0x15),
        Event::ChipReset,
        Event::Read(12),
    ]
}

/// The answers one by one.
fn one_by_one(board: &mut Board, events: &[Event]) -> Vec<Seen> {
    events.iter().map(|event| board.give(*event)).collect()
}

fn answered(count: usize) -> Polled {
    Polled { number: 0, count }
}

#[test]
fn the_same_as_one_by_one() {
    let (mut polled, mut single) = (receiving(), receiving());
    let events = accepted();
    let mut answers = vec![UNWRITTEN; events.len()];
    assert_eq!(
        polled.chip().poll(&events, &mut answers),
        answered(events.len())
    );
    assert_eq!(answers, one_by_one(&mut single, &events));
    assert!(answers.iter().all(|seen| seen.number == 0));
    assert_eq!(polled.shows(), single.shows());
}

/// Wherever a list is cut, the two polls are the one.
#[test]
fn cut_anywhere() {
    let events = accepted();
    for cut in 0..=events.len() {
        let (mut board, mut single) = (receiving(), receiving());
        let mut answers = vec![UNWRITTEN; events.len()];
        let (before, after) = answers.split_at_mut(cut);
        board.chip().poll(&events[..cut], before);
        board.chip().poll(&events[cut..], after);
        assert_eq!(answers, one_by_one(&mut single, &events));
        assert_eq!(board.shows(), single.shows());
    }
}

/// Order 1's fresh or stale is in the answers.
#[test]
fn fresh_and_stale() {
    let mut answers = [UNWRITTEN; 3];
    receiving().chip().poll(&[Event::Read(3); 3], &mut answers);
    let reads = answers.map(|seen| (seen.data, seen.fresh));
    assert_eq!(reads, [(7, true), (8, true), (8, false)]);
}

/// An empty list is answered 0 and changes nothing, be the answer space empty or not.
#[test]
fn empty() {
    let mut board = receiving();
    let mut answers = [UNWRITTEN; 2];
    assert_eq!(board.chip().poll(&[], &mut answers), answered(0));
    assert_eq!(answers, [UNWRITTEN; 2]);
    assert_eq!(board.chip().poll(&[], &mut []), answered(0));
    assert_eq!(board.shows(), receiving().shows());
}

/// "It ends at the first refused event; answers up to and including that one are written, later ones stay",
/// wherever it stands and whatever refuses it; the state is the one before it.
#[test]
fn ends_at_the_first_refused_event() {
    for (refused, number) in REFUSED {
        for place in 0..3 {
            let mut events = [Event::Read(3); 3];
            events[place] = refused;
            let (mut board, mut single) = (receiving(), receiving());
            let mut answers = [UNWRITTEN; 5];
            let polled = board.chip().poll(&events, &mut answers);
            assert_eq!(polled, answered(place + 1), "{refused:?} at {place}");
            let written = one_by_one(&mut single, &events[..=place]);
            assert_eq!(answers[..=place], written);
            assert_eq!((answers[place].number, answers[place].data), (number, 0));
            assert_eq!(answers[place + 1..], [UNWRITTEN; 5][place + 1..]);
            assert_eq!(board.shows(), single.shows());
        }
    }
}

/// The second of two refused events is not reached, and what follows is another poll's.
#[test]
fn goes_on_after_it() {
    let mut board = receiving();
    let events = [Event::Read(2), Event::Read(200), Event::Read(3)];
    let mut answers = [UNWRITTEN; 3];
    assert_eq!(board.chip().poll(&events, &mut answers), answered(1));
    assert_eq!(
        board.chip().poll(&events[1..], &mut answers[1..]),
        answered(1)
    );
    assert_eq!(
        board.chip().poll(&events[2..], &mut answers[2..]),
        answered(1)
    );
    assert_eq!(answers.map(|seen| seen.number), [3, 2, 0]);
    assert_eq!((answers[2].data, answers[2].fresh), (7, true));
}

/// "8 for answer space shorter than the list": by one, or none at all, and where a refused event would have ended
/// the list within the space.
#[test]
fn short_space() {
    let mut board = receiving();
    let mut answers = [UNWRITTEN; 2];
    let refused = Polled {
        number: 8,
        count: 0,
    };
    assert_eq!(
        board.chip().poll(&[Event::Read(3); 3], &mut answers),
        refused
    );
    assert_eq!(
        board.chip().poll(&[Event::Read(2); 3], &mut answers),
        refused
    );
    assert_eq!(board.chip().poll(&[Event::Read(3)], &mut []), refused);
    assert_eq!(answers, [UNWRITTEN; 2]);
    assert_eq!(board.shows(), receiving().shows());
}

/// "up to 4,096"; "9 for a list .. over its limit".
#[test]
fn long_lists() {
    let mut answers = vec![UNWRITTEN; 5_000];
    let mut board = Board::fresh();
    let refused = Polled {
        number: 9,
        count: 0,
    };
    for count in [4_097, 5_000] {
        let events = vec![Event::Tick; count];
        assert_eq!(board.chip().poll(&events, &mut answers), refused);
        assert_eq!(board.chip().poll(&events, &mut answers[..count]), refused);
    }
    assert!(answers.iter().all(|seen| *seen == UNWRITTEN));
    assert_eq!(board.shows(), Board::fresh().shows());
    let events = vec![Event::Tick; 4_096];
    assert_eq!(board.chip().poll(&events, &mut answers), answered(4_096));
    assert!(answers[..4_096].iter().all(|seen| seen.number == 0));
    assert!(answers[4_096..].iter().all(|seen| *seen == UNWRITTEN));
    let mut single = Board::fresh();
    single.ticks(4_096);
    assert_eq!(board.shows(), single.shows());
}

/// "in this order": a longer list with too little space is 8, wherever the space stands to the limit.
#[test]
fn short_space_before_a_long_list() {
    let events = vec![Event::Tick; 5_000];
    for space in [0, 4_095, 4_096, 4_097, 4_999] {
        let mut answers = vec![UNWRITTEN; space];
        let polled = Board::fresh().chip().poll(&events, &mut answers);
        assert_eq!((polled.number, polled.count), (8, 0), "{space}");
        assert!(answers.iter().all(|seen| *seen == UNWRITTEN));
    }
}
