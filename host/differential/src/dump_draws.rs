//! Drawn lists, dumped. The events of a script are cut at random places, and each piece is dumped from where the script
//! stands; into most pieces are put events that move a wire, take it back at the same time, or are refused. The lists of
//! drawn devices are their own.

use crate::device_calls::{some_device, some_list};
use crate::dump_sights::DumpCoverage;
use crate::dump_walk::Walk;
use crate::dumps::{Dumping, Failure, List, Shown};
use crate::generator::Generator;
use duart::{dump_space, Event, EventRecord};

/// Where a piece of a script was not dumped as it should be.
pub struct Misfit {
    pub seed: u64,
    pub place: usize,
    pub failure: Box<Failure>,
}

impl Misfit {
    pub fn print(&self) {
        println!("in the events of script {}, from its event {} on:", self.seed, self.place);
        self.failure.print();
    }
}

/// The events of the script of a seed.
pub fn run(seed: u64, events: &[EventRecord], coverage: &mut DumpCoverage) -> Result<(), Misfit> {
    let mut shower = Shower::new(Shown::fresh(), Generator::with_seed(seed.rotate_left(17)), coverage);
    let mut place = 0;
    while place < events.len() {
        let went = shower.act(&events[place..]);
        place += went.map_err(|failure| Misfit { seed, place, failure })?;
    }
    Ok(())
}

/// So many drawn devices, sound or not.
pub fn run_devices(devices: u64, seed: u64, coverage: &mut DumpCoverage) -> Dumping<()> {
    let mut draws = Generator::with_seed(seed.rotate_left(48));
    for _ in 0..devices {
        let shown = Shown::of_device(some_device(&mut draws));
        let mut shower = Shower::new(shown, Generator::with_seed(draws.draw()), coverage);
        let list = List::of(&some_list(&mut shower.draws));
        shower.show(&list)?;
    }
    Ok(())
}

/// The chips under way, with what is counted of their dumps.
pub struct Shower<'a> {
    pub shown: Shown,
    pub draws: Generator,
    coverage: &'a mut DumpCoverage,
}

impl<'a> Shower<'a> {
    pub fn new(shown: Shown, draws: Generator, coverage: &'a mut DumpCoverage) -> Shower<'a> {
        Shower { shown, draws, coverage }
    }

    /// A piece of the script dumped, and taken: how many of its events.
    fn act(&mut self, events: &[EventRecord]) -> Dumping<usize> {
        let length = match self.draws.below(16) {
            0 => 0,
            1 => self.draws.between(1, 3),
            2..=7 => self.draws.below(64),
            8..=13 => self.draws.below(600),
            _ => self.draws.below(3_000),
        };
        let piece = &events[..events.len().min(length as usize)];
        let events_of_list = if self.draws.one_in(4) { piece.to_vec() } else { self.spiced(piece) };
        let rest = self.draws.pick(&[0, 0, 0, 0, 1, 2]);
        self.show(&List { events: events_of_list, rest })?;
        let taken = piece.len().max(1);
        events[..taken].iter().for_each(|event| self.shown.step(*event));
        Ok(taken)
    }

    /// With space for any text, then with as much as the text has and with less.
    pub fn show(&mut self, list: &List) -> Dumping<()> {
        let size = dump_space(list.events.len());
        let answer = self.shown.dump(list, size)?;
        self.coverage.see_call(list, size, answer, None);
        if answer.number != 0 {
            return self.show_refused(list);
        }
        let walk = Walk::of(self.shown.chip.clone(), &list.events);
        self.coverage.see_walk(list, &walk);
        let length = answer.length;
        let less = self.draws.below(length as u64) as usize;
        let more = length + self.draws.below(9) as usize;
        let within = self.draws.below(372) as usize;
        for size in [length, length - 1, less, more, within, 0] {
            if self.draws.flip() {
                let answer = self.shown.dump(list, size)?;
                self.coverage.see_call(list, size, answer, Some((length, &walk)));
            }
        }
        Ok(())
    }

    /// Refused with any space: with none too.
    fn show_refused(&mut self, list: &List) -> Dumping<()> {
        let sizes = [0, self.draws.below(372) as usize, 372];
        for size in sizes {
            let answer = self.shown.dump(list, size)?;
            self.coverage.see_call(list, size, answer, None);
        }
        Ok(())
    }

    // ------------------------------------------------------------ what is put into a piece

    /// Moves of wires, here and there, often several before one tick; in one of four lists a refused event.
    fn spiced(&mut self, piece: &[EventRecord]) -> Vec<EventRecord> {
        let mut events = piece.to_vec();
        if self.draws.one_in(4) {
            let fast = self.draws.small(3) + 1;
            let timer = [(6, 0), (7, fast), (4, 0x60), (13, 0x04)];
            events.splice(0..0, timer.map(|(register, byte)| Event::Write(register, byte).into()));
        }
        for _ in 0..self.draws.below(12) {
            let place = self.draws.below(events.len().min(40) as u64 + 1) as usize;
            let place = if self.draws.flip() { place } else { events.len() - place };
            let put = self.spice();
            events.splice(place..place, put.into_iter().map(EventRecord::from));
        }
        if self.draws.one_in(4) {
            let place = self.draws.below(events.len() as u64 + 1) as usize;
            let refused = self.refused();
            events.insert(place, refused);
        }
        events
    }

    /// A wire moves, or moves and is taken back, or moves thrice.
    fn spice(&mut self) -> Vec<Event> {
        let bit = 1 << self.draws.small(8);
        let (set, reset) = (Event::Write(14, bit), Event::Write(15, bit));
        let byte = self.draws.byte();
        match self.draws.below(32) {
            0..=4 => vec![set, reset],
            5..=8 => vec![reset, set],
            9..=11 => vec![set, reset, set],
            12..=14 => vec![set],
            15..=16 => vec![reset],
            17 => vec![Event::Write(14, byte), Event::Write(15, !byte)],
            18..=19 => vec![Event::Write(5, byte)],
            20..=21 => vec![Event::Write(5, 0)],
            22 => vec![Event::Write(5, 0xff), Event::Write(5, 0)],
            23..=24 => vec![Event::Tick, Event::Read(14)],
            25 => vec![Event::Write(13, 0)],
            26 => vec![Event::Write(2, 0x30), Event::Write(10, 0x30), Event::Write(5, 0), Event::Write(15, 0xff)],
            27 => vec![Event::ChipReset],
            28..=29 => vec![Event::Tick, set, Event::Tick, reset],
            _ => vec![Event::Tick],
        }
    }

    /// One event of each number.
    fn refused(&mut self) -> EventRecord {
        let event = match self.draws.below(6) {
            0 => Event::Read(16),
            1 => Event::Read(self.draws.pick(&[2, 10])),
            2 => Event::Write(self.draws.pick(&[2, 10]), 0x0f),
            3 => Event::Write(13, 0x01),
            4 => Event::Acknowledge,
            _ => {
                let kind = self.draws.pick(&[6, 7, 255]);
                return EventRecord { kind, reg: 14, byte: 0xff };
            }
        };
        event.into()
    }
}

#[cfg(test)]
mod tests {
    use super::{run, run_devices};
    use crate::dump_sights::{DumpCoverage, DumpSight};
    use duart::{Event, EventRecord};

    #[test]
    fn all_events_of_a_script_are_done() {
        let events = vec![EventRecord::from(Event::Tick); 2_000];
        let mut coverage = DumpCoverage::default();
        for seed in 0..20 {
            assert!(run(seed, &events, &mut coverage).is_ok());
        }
        let met = [DumpSight::TakenBackAlone, DumpSight::EndsMiddle, DumpSight::RefusedBy8ByOne, DumpSight::EarlyChange];
        assert!(met.iter().all(|sight| coverage.of(*sight) > 0));
    }

    #[test]
    fn devices_of_each_sort_are_dumped() {
        let mut coverage = DumpCoverage::default();
        assert!(run_devices(200, 1, &mut coverage).is_ok());
        assert!(coverage.of(DumpSight::RefusedBy1) > 0 && coverage.of(DumpSight::SpaceExact) > 0);
    }
}
