//! How a difference is told: what happened before it, both answers, and a shorter script that shows it too,
//! in the format of the replay program.

use crate::pair::{Difference, Pair};
use crate::scripts::Failure;
use duart::{EventRecord, Seen};

/// So many lines of the script before the difference are shown.
const LINES_BEFORE: usize = 24;
/// A script is shortened until so many events have been tried, some seconds' work.
const TRIED_EVENTS: usize = 10_000_000;
const TICK: u8 = 5;

pub fn print(failure: &Failure) {
    let events = &failure.events;
    let Failure {
        seed,
        events_in_all,
        ..
    } = failure;
    println!(
        "the chip and the model differ in script {seed} at its event {}, event {events_in_all} in all",
        events.len()
    );
    println!("(differential 1 {seed} runs it again); its last lines:");
    let lines = lines(events);
    for line in &lines[lines.len().saturating_sub(LINES_BEFORE)..] {
        println!("{line}");
    }
    print_answers(&failure.difference);
    print_shorter(events);
}

fn print_answers(difference: &Difference) {
    println!("# the chip says  {}", answer(difference.chip));
    println!("# the model says {}", answer(difference.model));
    if difference.altered {
        println!("# the chip refused the event and altered its state");
    }
}

fn print_shorter(events: &[EventRecord]) {
    let shorter = shortened(events.to_vec());
    println!("# a shorter script ({} events), for replay:", shorter.len());
    for line in lines(&shorter) {
        println!("{line}");
    }
    if let Some((_, difference)) = first_difference(&shorter) {
        print_answers(&difference);
    }
}

/// As replay prints it, fresh last.
fn answer(seen: Seen) -> String {
    format!(
        "{} {} {} {} {} {} {}",
        seen.number,
        seen.data,
        u8::from(seen.irq),
        u8::from(seen.txda),
        u8::from(seen.txdb),
        seen.op,
        u8::from(seen.fresh)
    )
}

/// A script in the format of the replay program. That has no records, so one of unknown kind is written as
/// the read that it is answered as.
fn lines(events: &[EventRecord]) -> Vec<String> {
    let mut lines = Vec::new();
    let mut ticks = 0;
    for (place, event) in events.iter().enumerate() {
        if event.kind == TICK {
            ticks += 1;
            if events.get(place + 1).map_or(true, |next| next.kind != TICK) {
                lines.push(format!("tick {ticks}"));
                ticks = 0;
            }
        } else {
            lines.push(line(*event));
        }
    }
    lines
}

fn line(event: EventRecord) -> String {
    let EventRecord { kind, reg, byte } = event;
    match kind {
        0 => "reset".to_string(),
        1 => format!("read {reg}"),
        2 => format!("write {reg} {byte}"),
        3 => "ack".to_string(),
        4 => format!("pins {byte}"),
        TICK => "tick".to_string(),
        _ => format!("# a record of kind {kind}, register {reg}, byte {byte}\nread 255"),
    }
}

/// The first event of a script on which the two differ, from fresh chips.
fn first_difference(events: &[EventRecord]) -> Option<(usize, Difference)> {
    let mut pair = Pair::fresh();
    let mut events = events.iter().enumerate();
    events.find_map(|(place, event)| pair.step(*event).err().map(|found| (place, found)))
}

/// Leaves out pieces, large ones first, as long as a difference stays.
fn shortened(mut events: Vec<EventRecord>) -> Vec<EventRecord> {
    let mut tried = 0;
    let mut piece = events.len() / 2;
    while piece > 0 {
        let mut begin = 0;
        while begin < events.len() && tried < TRIED_EVENTS {
            let end = (begin + piece).min(events.len());
            let mut without = [&events[..begin], &events[end..]].concat();
            tried += without.len();
            if let Some((place, _)) = first_difference(&without) {
                without.truncate(place + 1);
                events = without;
            } else {
                begin = end;
            }
        }
        piece /= 2;
    }
    events
}

#[cfg(test)]
mod tests {
    use super::{answer, lines};
    use duart::{Duart, Event, EventRecord, Seen};

    #[test]
    fn a_script_is_written_as_replay_reads_it() {
        let events = [
            Event::ChipReset,
            Event::Tick,
            Event::Tick,
            Event::Write(2, 16),
            Event::Tick,
            Event::Pins(255),
            Event::Acknowledge,
        ];
        let written = lines(&events.map(EventRecord::from));
        let expected = ["reset", "tick 2", "write 2 16", "tick 1", "pins 255", "ack"];
        assert_eq!(written, expected);
    }

    #[test]
    fn an_answer_is_written_as_replay_prints_it() {
        let seen = Duart::fresh().step_raw(Event::Read(12));
        assert_eq!(answer(seen), "0 15 0 1 1 255 0");
        let fresh = Seen {
            fresh: true,
            ..seen
        };
        assert_eq!(answer(fresh), "0 15 0 1 1 255 1");
    }
}
