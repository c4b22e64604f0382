//! Drawn scripts again, through order 5's calls: their events are cut at random places into polls and runs. In between are calls
//! that are refused, and asides, in which copies of the chips run further than the script does and are left there.

use crate::call_sights::CallCoverage;
use crate::calls::{Called, Failure, Trio};
use crate::coverage::TICK;
use crate::generator::Generator;
use duart::{mode, Event, EventRecord, Ran, MOST_EVENTS, MOST_TICKS};

/// The chips under way, with what is counted of them.
pub struct Caller<'a> {
    pub trio: Trio,
    pub draws: Generator,
    coverage: &'a mut CallCoverage,
}

/// Where a script's events were not the same through the calls.
pub struct Misfit {
    pub seed: u64,
    pub place: usize,
    pub failure: Box<Failure>,
}

impl Misfit {
    pub fn print(&self) {
        println!("in the events of script {}, from its event {} on:", self.seed, self.place);
        self.failure.print();
    }
}

/// The events of the script of a seed.
pub fn run(seed: u64, events: &[EventRecord], coverage: &mut CallCoverage) -> Result<(), Misfit> {
    let mut caller = Caller::new(Trio::fresh(), Generator::with_seed(!seed), coverage);
    let mut place = 0;
    while place < events.len() {
        let went = caller.act(&events[place..]);
        place += went.map_err(|failure| Misfit { seed, place, failure })?;
    }
    Ok(())
}

impl<'a> Caller<'a> {
    pub fn new(trio: Trio, draws: Generator, coverage: &'a mut CallCoverage) -> Caller<'a> {
        Caller { trio, draws, coverage }
    }

    pub fn poll(&mut self, events: &[EventRecord], space: usize) -> Called<usize> {
        let poll = self.trio.poll(events, space)?;
        self.coverage.see_poll(events, space, poll.polled, &poll.answers);
        Ok(poll.polled.count)
    }

    pub fn run(&mut self, budget: u32) -> Called<Ran> {
        let before = *self.trio.device();
        let ran = self.trio.run(budget)?;
        self.coverage.see_run(&before, budget, ran, self.trio.device());
        Ok(ran)
    }

    /// One call or an aside; how many of the script's events are done.
    fn act(&mut self, events: &[EventRecord]) -> Called<usize> {
        let ticks = events.iter().take_while(|event| event.kind == TICK).count();
        match self.draws.below(64) {
            0 => self.refused(events),
            1..=16 => self.aside(),
            17..=39 if ticks > 0 => self.run_stretch(ticks),
            _ => self.poll_piece(events),
        }
    }

    /// Often as long as a driver's poll, now and then as long as it may be.
    fn poll_piece(&mut self, events: &[EventRecord]) -> Called<usize> {
        let length = match self.draws.below(32) {
            0 => 0,
            1..=4 => 1,
            5..=15 => self.draws.below(16),
            16..=29 => self.draws.below(400),
            _ => MOST_EVENTS as u64,
        };
        let length = events.len().min(length as usize);
        let past = self.draws.pick(&[0, 0, 1, 7]);
        self.poll(&events[..length], length + past)
    }

    /// The script's own ticks, or some of them, until IRQ.
    fn run_stretch(&mut self, ticks: usize) -> Called<usize> {
        let budget = if self.draws.flip() {
            ticks as u64
        } else {
            self.draws.below(ticks as u64 + 1)
        };
        let ran = self.run(budget.min(u64::from(MOST_TICKS)) as u32)?;
        Ok(ran.ticks as usize)
    }

    // ------------------------------------------------------------ what is refused

    /// A list that is too long, too little space, or both; a budget that is too large.
    pub fn refused(&mut self, events: &[EventRecord]) -> Called<usize> {
        let most = MOST_EVENTS as u64;
        let length = self.draws.between(most + 1, most + 1_000) as usize;
        let long: Vec<EventRecord> = events.iter().copied().cycle().take(length).collect();
        let unknown = [EventRecord { kind: 6, reg: 0, byte: 0 }; 3];
        let piece = &events[..events.len().min(9)];
        match self.draws.below(6) {
            0 => self.poll(&long, length)?,
            1 => self.poll(&long, MOST_EVENTS)?,
            2 => self.poll(&long, length - 1)?,
            3 => self.poll(piece, piece.len() - 1)?,
            4 => self.poll(&unknown, 2)?,
            _ => {
                let more = self.draws.pick(&[1, 2, 1_000_000, u32::MAX - MOST_TICKS]);
                self.run(MOST_TICKS + more)?.ticks as usize
            }
        };
        Ok(0)
    }

    // ------------------------------------------------------------ asides

    /// Copies go on for longer than the script waits.
    fn aside(&mut self) -> Called<usize> {
        let kept = self.trio.clone();
        let events: Vec<EventRecord> = self.preparation().into_iter().map(EventRecord::from).collect();
        self.poll(&events, events.len())?;
        if self.draws.one_in(8) {
            self.poll(&[Event::Tick.into(); MOST_EVENTS], MOST_EVENTS)?;
        }
        let budget = match self.draws.below(8) {
            0 => self.draws.below(3),
            1..=2 => self.draws.below(64),
            3..=5 => self.draws.below(2_000),
            _ => self.draws.below(10_000),
        };
        self.run_about(budget as u32)?;
        self.trio = kept;
        Ok(0)
    }

    /// Something to wait for: one bit of ISR, and perhaps a counter, or a channel that sends, loops or breaks at some rate, with
    /// RxD as it may be.
    fn preparation(&mut self) -> Vec<Event> {
        let base = self.draws.pick(&[0, 8]);
        let code = self.draws.pick(&[8, 9, 10, 11, 12, 12, 13]);
        let byte = self.draws.byte();
        let command = self.draws.pick(&[0x05, 0x05, 0x65, 0x75]);
        let local = self.draws.pick(&[mode::NORMAL, mode::LOCAL_LOOPBACK]);
        let idle = [(2, 0x30), (2, 0x50), (2, 0x10), (0, 0x13), (0, local | 7)];
        let sends = [(1, code * 0x11), (2, 0x05), (3, byte), (2, command)];
        let acr = self.draws.pick(&[0x10, 0x20, 0x30, 0x60, 0x70]);
        let timer = [(6, 0), (7, byte), (4, acr)];
        let imr = self.draws.pick(&[0x00, 0x01, 0x02, 0x04, 0x08, 0x10, 0x20, 0x40]);
        let mut writes = vec![(5, imr)];
        if self.draws.flip() {
            let channel = idle.into_iter().chain(sends);
            writes.extend(channel.map(|(register, byte)| (base + register, byte)));
        }
        if self.draws.one_in(3) {
            writes.extend(timer);
        }
        let mut events: Vec<Event> = writes.into_iter().map(|(register, byte)| Event::Write(register, byte)).collect();
        events.extend([Event::Read(15), Event::Read(14)]);
        if self.draws.flip() {
            events.push(Event::Pins(self.draws.byte() | 0x3c));
        }
        events
    }

    /// A run, and from the same state one that ends with the tick in which IRQ came, and one that ends before it.
    fn run_about(&mut self, budget: u32) -> Called<()> {
        let kept = self.trio.clone();
        let ran = self.run(budget)?;
        if ran.irq && (1..2_000).contains(&ran.ticks) {
            for budget in [ran.ticks, ran.ticks - 1] {
                self.trio = kept.clone();
                self.run(budget)?;
            }
        }
        Ok(())
    }
}

#[cfg(test)]
mod tests {
    use super::run;
    use crate::call_sights::{CallCoverage, CallSight};
    use duart::{Event, EventRecord};

    #[test]
    fn all_events_of_a_script_are_done() {
        let mut events = vec![EventRecord::from(Event::Tick); 2_000];
        events[1_000] = Event::Read(2).into();
        let mut coverage = CallCoverage::default();
        for seed in 0..20 {
            assert!(run(seed, &events, &mut coverage).is_ok());
        }
        assert!(coverage.polls > 20 && coverage.runs > 20);
        assert!(coverage.of(CallSight::PollEndsBy3) > 0 && coverage.of(CallSight::RunNever) > 0);
    }
}
