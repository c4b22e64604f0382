//! What is counted of order 5's two calls: as for the scripts, a run in which one of these is zero fails.

use duart::{EventRecord, Polled, Seen, MOST_EVENTS};

/// A sight of a call.
#[derive(Clone, Copy, Debug, PartialEq, Eq)]
pub enum CallSight {
    PollEmpty,
    PollOne,
    PollMost,
    PollMostToItsEnd,
    PollPlacesStay,
    PollEndsFirst,
    PollEndsMiddle,
    PollEndsLast,
    PollEndsBy2,
    PollEndsBy3,
    PollEndsBy4,
    PollEndsBy5,
    PollEndsBy6,
    PollEndsByUnknownKind,
    PollFresh,
    PollStale,
    PollVector,
    PollChipReset,
    PollAssertsIrq,
    PollRefusedBy1,
    PollRefusedBy1Before8,
    PollRefusedBy1Before9,
    PollRefusedBy8,
    PollRefusedBy8Before9,
    PollRefusedBy8WouldEnd,
    PollRefusedBy9,
    RunNoBudget,
    RunAssertedAlready,
    RunStopsBefore,
    RunStopsInLast,
    RunNever,
    RunRefusedBy1,
    RunRefusedBy1Before9,
    RunRefusedBy9,
    RunRefusedBy9Asserted,
    RunOffTicks,
    RunPastThePeriod,
    RunOddEcho,
    LongToItsEnd,
    LongStopped,
    LongSendingOnA,
    LongSendingOnB,
    LongReceivingOnA,
    LongReceivingOnB,
    LongInBreakOnA,
    LongInBreakOnB,
    LongAfterLowStop,
    LongInBreakReceived,
    LongHeldByCts,
}

/// Each sight by its name, in the order of the enum.
pub const CALL_SIGHTS: [(CallSight, &str); 49] = [
    (CallSight::PollEmpty, "polls of no event"),
    (CallSight::PollOne, "polls of one event"),
    (CallSight::PollMost, "polls of 4,096 events"),
    (CallSight::PollMostToItsEnd, "polls of 4,096, none refused"),
    (CallSight::PollPlacesStay, "polls with places past the count"),
    (CallSight::PollEndsFirst, "polls ended by the first of several"),
    (CallSight::PollEndsMiddle, "polls ended in the middle"),
    (CallSight::PollEndsLast, "polls ended by the last of several"),
    (CallSight::PollEndsBy2, "polls ended by 2"),
    (CallSight::PollEndsBy3, "polls ended by 3"),
    (CallSight::PollEndsBy4, "polls ended by 4"),
    (CallSight::PollEndsBy5, "polls ended by 5"),
    (CallSight::PollEndsBy6, "polls ended by an acknowledge, 6"),
    (CallSight::PollEndsByUnknownKind, "polls ended by a kind above 5"),
    (CallSight::PollFresh, "polls with a fresh read"),
    (CallSight::PollStale, "polls with a stale read"),
    (CallSight::PollVector, "polls with a vector read"),
    (CallSight::PollChipReset, "polls with a chip reset"),
    (CallSight::PollAssertsIrq, "polls in which IRQ is asserted"),
    (CallSight::PollRefusedBy1, "polls refused by 1"),
    (CallSight::PollRefusedBy1Before8, "polls refused by 1, and not by 8"),
    (CallSight::PollRefusedBy1Before9, "polls refused by 1, and not by 9"),
    (CallSight::PollRefusedBy8, "polls refused by 8"),
    (CallSight::PollRefusedBy8Before9, "polls refused by 8, and not by 9"),
    (CallSight::PollRefusedBy8WouldEnd, "polls refused by 8, a refused event first"),
    (CallSight::PollRefusedBy9, "polls refused by 9"),
    (CallSight::RunNoBudget, "runs with no budget"),
    (CallSight::RunAssertedAlready, "runs with IRQ asserted already"),
    (CallSight::RunStopsBefore, "runs stopped before the budget"),
    (CallSight::RunStopsInLast, "runs stopped in its last tick"),
    (CallSight::RunNever, "runs not stopped"),
    (CallSight::RunRefusedBy1, "runs refused by 1"),
    (CallSight::RunRefusedBy1Before9, "runs refused by 1, and not by 9"),
    (CallSight::RunRefusedBy9, "runs refused by 9"),
    (CallSight::RunRefusedBy9Asserted, "runs refused by 9, IRQ asserted"),
    (CallSight::RunOffTicks, "runs, no side on ticks"),
    (CallSight::RunPastThePeriod, "runs, a divider past its period"),
    (CallSight::RunOddEcho, "runs, sending in an echo mode"),
    (CallSight::LongToItsEnd, "budgets of 1,000,000, spent"),
    (CallSight::LongStopped, "budgets of 1,000,000, stopped"),
    (CallSight::LongSendingOnA, "with A sending"),
    (CallSight::LongSendingOnB, "with B sending"),
    (CallSight::LongReceivingOnA, "with A receiving"),
    (CallSight::LongReceivingOnB, "with B receiving"),
    (CallSight::LongInBreakOnA, "with A sending a break"),
    (CallSight::LongInBreakOnB, "with B sending a break"),
    (CallSight::LongAfterLowStop, "after a low stop"),
    (CallSight::LongInBreakReceived, "in a break received"),
    (CallSight::LongHeldByCts, "with a character held by CTS"),
];

/// The counts, and four families of them: budgets of 1,000,000 by the clock codes of enabled sides, by ACR 6-4 and by the
/// channels' modes; and runs by the ISR bit that stopped them (no tick sets bit 7).
pub struct CallCoverage {
    counts: [u64; CALL_SIGHTS.len()],
    pub codes: [u64; 16],
    pub counter_modes: [u64; 8],
    pub channel_modes: [u64; 4],
    pub stops: [u64; 7],
    pub polls: u64,
    pub runs: u64,
}

impl Default for CallCoverage {
    fn default() -> CallCoverage {
        CallCoverage {
            counts: [0; CALL_SIGHTS.len()],
            codes: [0; 16],
            counter_modes: [0; 8],
            channel_modes: [0; 4],
            stops: [0; 7],
            polls: 0,
            runs: 0,
        }
    }
}

fn family(name: &'static str, counts: &[u64]) -> Vec<(String, u64)> {
    let named = counts.iter().enumerate();
    named.map(|(place, count)| (format!("{name} {place}"), *count)).collect()
}

impl CallCoverage {
    /// Each name and its count.
    fn lines(&self) -> Vec<(String, u64)> {
        let sights = CALL_SIGHTS.iter();
        let counted: Vec<(String, u64)> = sights.map(|(sight, name)| (name.to_string(), self.of(*sight))).collect();
        let families = [
            family("budgets of 1,000,000 on code", &self.codes),
            family("with ACR 6-4 at", &self.counter_modes),
            family("with MR2 7-6 at", &self.channel_modes),
            family("runs stopped by ISR bit", &self.stops),
        ];
        [counted, families.concat()].concat()
    }

    pub fn missing(&self) -> Vec<String> {
        let none = self.lines().into_iter().filter(|(_, count)| *count == 0);
        none.map(|(name, _)| name).collect()
    }

    pub fn print(&self) {
        for (name, count) in self.lines() {
            println!("{count:>10} {name}");
        }
    }

    pub fn of(&self, sight: CallSight) -> u64 {
        self.counts[sight as usize]
    }

    pub fn note_if(&mut self, so: bool, sight: CallSight) {
        self.counts[sight as usize] += u64::from(so);
    }
}

// ------------------------------------------------------------ a poll

/// The sights of a refused event, by its number less 2.
const ENDS: [CallSight; 5] = [
    CallSight::PollEndsBy2,
    CallSight::PollEndsBy3,
    CallSight::PollEndsBy4,
    CallSight::PollEndsBy5,
    CallSight::PollEndsBy6,
];

fn is_read_of_buffer(event: &EventRecord) -> bool {
    event.kind == 1 && matches!(event.reg, 3 | 11)
}

/// An event that is refused whatever the state.
fn is_always_refused(event: &EventRecord) -> bool {
    event.kind > 5 || (matches!(event.kind, 1 | 2) && event.reg > 15)
}

impl CallCoverage {
    pub fn see_poll(&mut self, events: &[EventRecord], space: usize, polled: Polled, answers: &[Seen]) {
        self.polls += 1;
        let (short, long) = (space < events.len(), events.len() > MOST_EVENTS);
        match polled.number {
            0 => self.see_answers(events, space, answers),
            1 => {
                self.note_if(true, CallSight::PollRefusedBy1);
                self.note_if(short, CallSight::PollRefusedBy1Before8);
                self.note_if(long, CallSight::PollRefusedBy1Before9);
            }
            8 => {
                let would_end = events.first().map_or(false, is_always_refused) && space > 0;
                self.note_if(true, CallSight::PollRefusedBy8);
                self.note_if(long, CallSight::PollRefusedBy8Before9);
                self.note_if(would_end, CallSight::PollRefusedBy8WouldEnd);
            }
            _ => self.note_if(true, CallSight::PollRefusedBy9),
        }
    }

    fn see_answers(&mut self, events: &[EventRecord], space: usize, answers: &[Seen]) {
        let pairs = || events.iter().zip(answers);
        let read = |fresh: bool| pairs().any(|(event, seen)| is_read_of_buffer(event) && seen.number == 0 && seen.fresh == fresh);
        let kind = |kind: u8| pairs().any(|(event, seen)| event.kind == kind && seen.number == 0);
        self.note_if(events.is_empty(), CallSight::PollEmpty);
        self.note_if(events.len() == 1, CallSight::PollOne);
        self.note_if(events.len() == MOST_EVENTS, CallSight::PollMost);
        self.note_if(space > answers.len(), CallSight::PollPlacesStay);
        self.note_if(read(true), CallSight::PollFresh);
        self.note_if(read(false), CallSight::PollStale);
        self.note_if(kind(3), CallSight::PollVector);
        self.note_if(kind(0), CallSight::PollChipReset);
        let asserted = answers.windows(2).any(|two| !two[0].irq && two[1].irq);
        self.note_if(asserted, CallSight::PollAssertsIrq);
        match answers.last() {
            Some(last) if last.number != 0 => self.see_end(events, answers.len(), last.number),
            _ => self.note_if(answers.len() == MOST_EVENTS, CallSight::PollMostToItsEnd),
        }
    }

    fn see_end(&mut self, events: &[EventRecord], count: usize, number: u8) {
        let several = events.len() > 1;
        self.note_if(several && count == 1, CallSight::PollEndsFirst);
        self.note_if(count > 1 && count < events.len(), CallSight::PollEndsMiddle);
        self.note_if(several && count == events.len(), CallSight::PollEndsLast);
        self.note_if(true, ENDS[usize::from(number - 2)]);
        self.note_if(events[count - 1].kind > 5, CallSight::PollEndsByUnknownKind);
    }
}

#[cfg(test)]
mod tests {
    use super::{CallCoverage, CallSight, CALL_SIGHTS};
    use crate::calls::Trio;
    use duart::{Event, EventRecord};

    #[test]
    fn the_names_stand_in_the_order_of_the_enum() {
        for (place, (sight, _)) in CALL_SIGHTS.iter().enumerate() {
            assert_eq!(*sight as usize, place);
        }
    }

    fn sights_of(events: &[EventRecord], space: usize) -> Vec<CallSight> {
        let mut coverage = CallCoverage::default();
        let poll = Trio::fresh().poll(events, space).unwrap_or_else(|failure| panic!("{}", failure.why));
        coverage.see_poll(events, space, poll.polled, &poll.answers);
        let counted = CALL_SIGHTS.iter().filter(|(sight, _)| coverage.of(*sight) > 0);
        counted.map(|(sight, _)| *sight).collect()
    }

    #[test]
    fn a_poll_is_counted_by_what_it_meets() {
        let events = [Event::Read(3), Event::Acknowledge, Event::Tick].map(EventRecord::from);
        let ended = [
            CallSight::PollPlacesStay,
            CallSight::PollEndsMiddle,
            CallSight::PollEndsBy6,
            CallSight::PollStale,
        ];
        assert_eq!(sights_of(&events, 3), ended);
        assert_eq!(sights_of(&events, 2), [CallSight::PollRefusedBy8]);
        assert_eq!(sights_of(&[], 0), [CallSight::PollEmpty]);
    }
}
