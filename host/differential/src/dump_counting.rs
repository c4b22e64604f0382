//! How a dump is counted: by what the lines do in its list, and by its space and its answer.

use crate::dump_sights::{DumpCoverage, DumpSight};
use crate::dump_walk::{Levels, Time, Walk, WIRES};
use crate::dumps::List;
use duart::{DumpAnswer, EventRecord, MOST_DUMPED};

const ALL_HIGH: Levels = (1 << WIRES) - 1;
/// "#0" and eleven values behind 336 bytes: the shortest text.
const SHORTEST: usize = 372;

/// The sights of a refused event, by its number less 2.
const ENDS: [DumpSight; 5] = [
    DumpSight::EndsBy2,
    DumpSight::EndsBy3,
    DumpSight::EndsBy4,
    DumpSight::EndsBy5,
    DumpSight::EndsBy6,
];

fn is_one(levels: Levels) -> bool {
    levels.count_ones() == 1
}

impl DumpCoverage {
    /// An accepted dump, once for its list.
    pub fn see_walk(&mut self, list: &List, walk: &Walk) {
        let taken = walk.refused.map_or(list.events.len(), |(place, _)| place);
        let taken = &list.events[..taken];
        let (zero, later) = walk.times.split_first().expect("there is time 0");
        self.see_zero(zero, taken, later);
        self.see_ends(taken, later);
        for (place, time) in later.iter().enumerate() {
            self.see_time(time);
            let before = if place == 0 { 0 } else { later[place - 1].tick };
            self.note_if(time.changed() != 0 && time.tick > before + 1, DumpSight::StillTicksBetween);
            self.note_if(time.changed() != 0 && before > 0 && time.tick == before + 1, DumpSight::NextTicks);
        }
        self.see_rest(list, walk);
        if let Some((place, number)) = walk.refused {
            self.see_refused(&list.events, place, number, walk);
        }
    }

    fn see_zero(&mut self, zero: &Time, taken: &[EventRecord], later: &[Time]) {
        let (last, still) = (zero.last(), later.iter().all(|time| time.changed() == 0));
        self.note_if(taken.is_empty(), DumpSight::NoEvent);
        self.note_if(!taken.is_empty() && later.is_empty(), DumpSight::NoTick);
        self.note_if(!later.is_empty() && still, DumpSight::OnlyTimeZero);
        self.note_if(last == ALL_HIGH, DumpSight::AllHighAtZero);
        self.note_if(zero.changed() != 0, DumpSight::EarlyChange);
        self.note_if(zero.taken_back() != 0, DumpSight::EarlyChangeBack);
        self.note_if(zero.changed() != 0 && !later.is_empty() && still, DumpSight::EarlyChangeAlone);
        for wire in 0..WIRES {
            self.low_at_zero[wire] += u64::from(!last >> wire & 1);
            self.high_at_zero[wire] += u64::from(last >> wire & 1);
        }
    }

    fn see_ends(&mut self, taken: &[EventRecord], later: &[Time]) {
        let end = later.last();
        let moved_last = end.map_or(false, |time| time.moves().last() != Some(0) && time.changed() != 0);
        let still_last = end.map_or(false, |time| time.changed() == 0);
        self.note_if(moved_last, DumpSight::ChangeInTheLastEvent);
        self.note_if(still_last, DumpSight::StillTicksAtTheEnd);
        let reset = taken.iter().rposition(|event| event.kind == 0).unwrap_or(0);
        let ticks = taken[..reset].iter().filter(|event| event.kind == 5).count() as u64;
        let after = later.iter().any(|time| time.tick > ticks && time.changed() != 0);
        self.note_if(ticks > 0 && after, DumpSight::ResetThenChange);
    }

    /// A time that is not 0.
    fn see_time(&mut self, time: &Time) {
        let (changed, back) = (time.changed(), time.taken_back());
        let by_tick = time.moves().next().unwrap_or(0);
        let changing = time.moves().filter(|moved| moved & changed != 0).count();
        self.note_if(changed == 0 && back != 0, DumpSight::TakenBackAlone);
        self.note_if(changed != 0 && back != 0, DumpSight::TakenBackBeside);
        self.note_if(by_tick & back != 0, DumpSight::TickTakenBack);
        self.note_if(time.moved_again() & changed != 0, DumpSight::MovedAgain);
        if changed == 0 {
            return;
        }
        self.note_if(changed != ALL_HIGH, DumpSight::OneOfSeveral);
        self.note_if(changing > 1, DumpSight::TwoAtOneTime);
        self.note_if(by_tick & changed != 0 && changed & !by_tick != 0, DumpSight::TickAndLaterEvent);
        let fraction = time.tick * 625_000 % 2_304;
        self.note_if(fraction == 0, DumpSight::WholeTime);
        self.note_if((1..1_152).contains(&fraction), DumpSight::FractionBelowHalf);
        self.note_if(fraction > 1_152, DumpSight::FractionAboveHalf);
        self.digits[(time.tick * 625_000 / 2_304).to_string().len()] += 1;
        for wire in (0..WIRES).filter(|wire| changed >> wire & 1 == 1) {
            let high = time.last() >> wire & 1 == 1;
            self.rises[wire] += u64::from(high);
            self.falls[wire] += u64::from(!high);
            self.alone[wire] += u64::from(is_one(changed));
        }
    }

    fn see_rest(&mut self, list: &List, walk: &Walk) {
        self.note_if(list.rest == 1, DumpSight::RestOfOne);
        self.note_if(list.rest == 2, DumpSight::RestOfTwo);
        let behind_all = list.rest > 0 && walk.refused.is_none() && walk.last() != ALL_HIGH;
        self.note_if(behind_all, DumpSight::RestBehindAll);
        let most = list.events.len() == MOST_DUMPED && walk.refused.is_none();
        self.note_if(most, DumpSight::Most);
        self.note_if(most && behind_all, DumpSight::MostWithARest);
    }

    fn see_refused(&mut self, events: &[EventRecord], place: usize, number: u8, walk: &Walk) {
        let (first, last) = (place == 0, place + 1 == events.len());
        self.note_if(first && !last, DumpSight::EndsFirst);
        self.note_if(!first && !last, DumpSight::EndsMiddle);
        self.note_if(!first && last, DumpSight::EndsLast);
        self.note_if(walk.times.last().map_or(false, |time| time.changed() != 0), DumpSight::EndsWithAChange);
        self.note_if(walk.would_go_on, DumpSight::WouldGoOn);
        self.note_if(true, ENDS[usize::from(number - 2)]);
        self.note_if(events[place].kind > 5, DumpSight::EndsByUnknownKind);
    }

    /// Each call: the space, the answer, and the length of the whole text, where it is known.
    pub fn see_call(&mut self, list: &List, size: usize, answer: DumpAnswer, whole: Option<(usize, &Walk)>) {
        self.dumps += 1;
        let (short, long) = (size < SHORTEST, list.events.len() > MOST_DUMPED);
        match answer.number {
            0 => {
                self.note_if(size == answer.length, DumpSight::SpaceExact);
                self.note_if(size > answer.length, DumpSight::SpacePast);
            }
            1 => {
                self.note_if(true, DumpSight::RefusedBy1);
                self.note_if(short, DumpSight::RefusedBy1Before8);
                self.note_if(long, DumpSight::RefusedBy1Before9);
            }
            8 => {
                let ended = whole.map_or(false, |(_, walk)| walk.would_go_on);
                self.note_if(whole.map_or(false, |(length, _)| size + 1 == length), DumpSight::RefusedBy8ByOne);
                self.note_if(size > 0 && short, DumpSight::RefusedBy8Within);
                self.note_if(size == 0, DumpSight::RefusedBy8Empty);
                self.note_if(ended, DumpSight::RefusedBy8WouldGoOn);
            }
            _ => {
                let ends = list.events.first().map_or(false, |event| event.kind > 5);
                self.note_if(true, DumpSight::RefusedBy9);
                self.note_if(short, DumpSight::RefusedBy9Before8);
                self.note_if(ends, DumpSight::RefusedBy9WouldEnd);
            }
        }
    }
}

#[cfg(test)]
mod tests {
    use super::*;
    use crate::dump_sights::DUMP_SIGHTS;
    use duart::{Duart, Event};

    fn sights_of(events: &[Event]) -> Vec<DumpSight> {
        let events: Vec<EventRecord> = events.iter().map(|event| (*event).into()).collect();
        let mut coverage = DumpCoverage::default();
        coverage.see_walk(&List::of(&events), &Walk::of(Duart::fresh(), &events));
        let counted = DUMP_SIGHTS.iter().filter(|(sight, _)| coverage.of(*sight) > 0);
        counted.map(|(sight, _)| *sight).collect()
    }

    #[test]
    fn a_dump_is_counted_by_what_its_lines_do() {
        let (set, reset) = (Event::Write(14, 1), Event::Write(15, 1));
        assert_eq!(sights_of(&[]), [DumpSight::NoEvent, DumpSight::AllHighAtZero]);
        let early = [DumpSight::EarlyChange, DumpSight::EarlyChangeAlone, DumpSight::StillTicksAtTheEnd];
        assert_eq!(sights_of(&[set, Event::Tick]), [&[DumpSight::OnlyTimeZero][..], &early].concat());
        let back = sights_of(&[Event::Tick, set, reset]);
        assert!(back.contains(&DumpSight::TakenBackAlone) && !back.contains(&DumpSight::MovedAgain));
        let thrice = sights_of(&[Event::Tick, set, reset, set]);
        assert!(thrice.contains(&DumpSight::MovedAgain) && !thrice.contains(&DumpSight::TakenBackAlone));
    }

    #[test]
    fn a_refused_event_is_counted_by_what_it_ends() {
        let set = Event::Write(14, 1);
        let ended = sights_of(&[Event::Tick, set, Event::Read(2), Event::Tick, Event::Write(15, 1)]);
        let wanted = [DumpSight::EndsMiddle, DumpSight::EndsWithAChange, DumpSight::WouldGoOn, DumpSight::EndsBy3];
        assert!(wanted.iter().all(|sight| ended.contains(sight)));
        assert!(!sights_of(&[Event::Read(2), Event::Tick]).contains(&DumpSight::WouldGoOn));
    }
}
