//! Order 5: a whole poll at once, and ticks until IRQ. Sentences in double quotes are the order's.

use crate::{archive, Duart, EventRecord, Refusal, Refused, Seen};

/// The longest list of a [poll](Duart::poll).
pub const MOST_EVENTS: usize = 4_096;

/// The largest budget of a [run](Duart::run_until_irq).
pub const MOST_TICKS: u32 = 1_000_000;

/// What a poll answers.
#[repr(C)]
#[derive(Clone, Copy, Debug, PartialEq, Eq)]
pub struct Polled {
    /// the call's own number: 0, 1 (the state is unsound), 8 (fewer places than events) or 9 (over [`MOST_EVENTS`]). A
    /// refused event does not show here, but in its answer.
    pub number: u8,
    /// the answers written, that of a refused event included; 0 if the call is refused
    pub count: usize,
}

/// What a run answers.
#[repr(C)]
#[derive(Clone, Copy, Debug, PartialEq, Eq)]
pub struct Ran {
    /// 0, 1 (the state is unsound) or 9 (over [`MOST_TICKS`])
    pub number: u8,
    /// the ticks it took; 0 if refused
    pub ticks: u32,
    /// IRQ, true when asserted: where the ticks are the budget, this tells whether the last of them asserted it
    pub irq: bool,
    /// the lines then, as the chip drives them where it is refused too (for 1, all lines 0)
    pub txda: bool,
    pub txdb: bool,
    /// bit n is the level of OPn
    pub op: u8,
}

impl Ran {
    /// The lines and the number as an event that was refused with it would have them.
    fn seen(&self) -> Seen {
        let Ran { number, ticks: _, irq, txda, txdb, op } = *self;
        Seen { number, data: 0, fresh: false, irq, txda, txdb, op }
    }
}

impl Duart {
    /// Takes the events, up to [`MOST_EVENTS`], in one call, "equal to the same events one by one", and writes their
    /// answers over the front of `answers`, which may be longer. "It ends at the first refused event; answers up to and
    /// including that one are written, later ones stay, the count says how many were written, and the call itself
    /// answers 0."
    ///
    /// So the count is answered where an event was refused too: its answer is the last that was written, and
    /// [`Seen::accepted`] makes a `Result` of it. A refused call (8, 9; 1 before them) is an error; it writes nothing
    /// and leaves the chip as it was.
    ///
    /// ```
    /// use duart::{Duart, Event, EventRecord, Refusal, Seen};
    ///
    /// # fn main() -> Result<(), Refusal> {
    /// let mut chip = Duart::fresh();
    /// let events = [Event::Write(12, 0x41), Event::Read(12), Event::Read(2), Event::Tick].map(EventRecord::from);
    /// let mut answers = [Seen::default(); 4];
    /// let count = chip.poll(&events, &mut answers)?;
    /// assert_eq!(count, 3); // a read of register 2 is refused, and the tick is not reached
    /// assert_eq!(answers[1].accepted()?.data, 0x41);
    /// assert_eq!(answers[2].accepted().unwrap_err().refusal, Refusal::ForbiddenRead);
    /// assert_eq!(chip.poll(&events, &mut answers[..3]), Err(Refusal::SpaceShort));
    /// # Ok(())
    /// # }
    /// ```
    pub fn poll(&mut self, events: &[EventRecord], answers: &mut [Seen]) -> Result<usize, Refusal> {
        let polled = self.poll_raw(events, answers);
        match Refusal::of_number(polled.number) {
            None => Ok(polled.count),
            Some(refusal) => Err(refusal),
        }
    }

    /// The same, answered by the record.
    #[must_use = "its number says whether the call was refused, its count how many answers were written"]
    pub fn poll_raw(&mut self, events: &[EventRecord], answers: &mut [Seen]) -> Polled {
        archive::poll(&mut self.device, events, answers)
    }

    /// "runs ticks until IRQ is asserted or a budget of up to 1,000,000 is spent, and reports how many ticks it took:
    /// zero if IRQ is asserted already, otherwise the number of single ticks to that state". The chip is as after so
    /// many ticks one by one; stretches in which nothing happens are passed over.
    ///
    /// A refused call (9; 1 before it) is an error, with the lines, and leaves the chip as it was.
    ///
    /// ```
    /// use duart::{Duart, Event, Refusal, Refused, MOST_TICKS};
    ///
    /// # fn main() -> Result<(), Refused> {
    /// let mut chip = Duart::fresh();
    /// for (register, byte) in [(6, 0), (7, 2), (4, 0x60), (5, 0x08)] {
    ///     chip.step(Event::Write(register, byte))?; // a timer on ticks, preload 2, which may interrupt
    /// }
    /// let ran = chip.run_until_irq(1_000)?;
    /// assert_eq!((ran.ticks, ran.irq), (4, true)); // two countdowns: the output is low, then high
    /// chip.step(Event::Read(15))?; // a stop clears ISR bit 3
    /// assert_eq!(chip.run_until_irq(3)?.irq, false);
    /// assert_eq!(chip.run_until_irq(MOST_TICKS + 1).unwrap_err().refusal, Refusal::OverLimit);
    /// # Ok(())
    /// # }
    /// ```
    pub fn run_until_irq(&mut self, budget: u32) -> Result<Ran, Refused> {
        let ran = self.run_until_irq_raw(budget);
        match ran.seen().accepted() {
            Ok(_) => Ok(ran),
            Err(refused) => Err(refused),
        }
    }

    /// The same, answered by the record.
    #[must_use = "its number says whether the call was refused, its ticks how many it took"]
    pub fn run_until_irq_raw(&mut self, budget: u32) -> Ran {
        archive::run(&mut self.device, budget)
    }
}

#[cfg(test)]
mod tests {
    use super::{Polled, Ran, MOST_EVENTS, MOST_TICKS};
    use crate::{Duart, Event, EventRecord, Refusal, Refused, Seen};

    /// What no event is answered.
    const UNWRITTEN: Seen = Seen { number: 99, data: 1, fresh: true, irq: true, txda: false, txdb: true, op: 5 };
    /// A timer on ticks/16, preload 3, which may interrupt: 96 ticks.
    const TIMER: [(u8, u8); 4] = [(6, 0), (7, 3), (4, 0x70), (5, 0x08)];

    fn timing() -> Duart {
        let mut chip = Duart::fresh();
        for (register, byte) in TIMER {
            assert!(chip.step(Event::Write(register, byte)).is_ok());
        }
        chip
    }

    fn unsound() -> Duart {
        let mut device = *Duart::fresh().device();
        device.a.queue.count = 200;
        Duart::from_device(device)
    }

    fn ticks(count: usize) -> Vec<EventRecord> {
        vec![Event::Tick.into(); count]
    }

    #[test]
    fn a_poll_is_the_same_events_one_by_one() {
        let (mut polled, mut single) = (timing(), timing());
        let mut answers = vec![UNWRITTEN; 101];
        assert_eq!(polled.poll_raw(&ticks(100), &mut answers), Polled { number: 0, count: 100 });
        for answer in &answers[..100] {
            assert_eq!(*answer, single.step_raw(Event::Tick));
        }
        assert_eq!((polled, answers[100]), (single, UNWRITTEN));
    }

    #[test]
    fn a_poll_ends_at_the_first_refused_event() {
        let (mut polled, mut single) = (timing(), timing());
        let events = [Event::Tick, Event::Acknowledge, Event::Tick].map(EventRecord::from);
        let mut answers = [UNWRITTEN; 3];
        assert_eq!(polled.poll_raw(&events, &mut answers), Polled { number: 0, count: 2 });
        let written = [single.step_raw(Event::Tick), single.step_raw(Event::Acknowledge)];
        assert_eq!((answers[1].number, answers[..2].to_vec(), answers[2]), (6, written.to_vec(), UNWRITTEN));
        assert_eq!(polled, single);
    }

    #[test]
    fn a_poll_is_refused_in_order() {
        let refused = |mut chip: Duart, events: usize, space: usize| {
            let before = chip.clone();
            let mut answers = vec![UNWRITTEN; space];
            let polled = chip.poll_raw(&ticks(events), &mut answers);
            assert!(polled.count == 0 && chip == before && answers.iter().all(|seen| *seen == UNWRITTEN));
            polled.number
        };
        let over = MOST_EVENTS + 1;
        assert_eq!(refused(Duart::fresh(), 0, 0), 0);
        assert_eq!(refused(Duart::fresh(), 1, 0), 8);
        assert_eq!(refused(Duart::fresh(), over, MOST_EVENTS), 8);
        assert_eq!(refused(Duart::fresh(), over, over), 9);
        assert_eq!(refused(unsound(), 0, 0), 1);
        assert_eq!(refused(unsound(), 1, 0), 1);
        assert_eq!(refused(unsound(), over, over), 1);
    }

    #[test]
    fn a_run_stops_at_irq_or_at_its_budget() {
        let mut chip = timing();
        let end = |ran: Ran| (ran.number, ran.ticks, ran.irq);
        assert_eq!(end(chip.run_until_irq_raw(0)), (0, 0, false));
        assert_eq!(end(chip.run_until_irq_raw(95)), (0, 95, false));
        assert_eq!(end(chip.run_until_irq_raw(MOST_TICKS)), (0, 1, true));
        let before = chip.clone();
        assert_eq!(end(chip.run_until_irq_raw(7)), (0, 0, true));
        assert_eq!(end(chip.run_until_irq_raw(MOST_TICKS + 1)), (9, 0, true));
        assert_eq!(chip, before);
        let mut single = timing();
        (0..96).for_each(|_| assert_eq!(single.step_raw(Event::Tick).number, 0));
        assert_eq!(chip, single);
    }

    #[test]
    fn a_run_of_an_unsound_chip_is_refused_first() {
        let refused = Ran { number: 1, ticks: 0, irq: false, txda: false, txdb: false, op: 0 };
        let mut chip = unsound();
        assert_eq!([0, 9, MOST_TICKS + 1].map(|budget| chip.run_until_irq_raw(budget)), [refused; 3]);
        assert_eq!(chip, unsound());
    }

    #[test]
    fn a_refused_event_in_a_poll_is_no_error_of_the_call() {
        let events = [Event::Tick, Event::Acknowledge, Event::Tick].map(EventRecord::from);
        let mut answers = [UNWRITTEN; 3];
        assert_eq!(timing().poll(&events, &mut answers), Ok(2));
        assert_eq!(answers[0].accepted(), Ok(answers[0]));
        let refused = Refused { refusal: Refusal::NotAsserted, seen: answers[1] };
        assert_eq!(answers[1].accepted(), Err(refused));
    }

    #[test]
    fn a_refused_poll_is_an_error() {
        let over = ticks(MOST_EVENTS + 1);
        let mut answers = vec![UNWRITTEN; over.len()];
        assert_eq!(timing().poll(&over[..2], &mut answers[..1]), Err(Refusal::SpaceShort));
        assert_eq!(timing().poll(&over, &mut answers), Err(Refusal::OverLimit));
        assert_eq!(unsound().poll(&[], &mut []), Err(Refusal::Unsound));
        assert_eq!(timing().poll(&[], &mut []), Ok(0));
    }

    #[test]
    fn a_run_is_its_record_and_a_refused_one_is_an_error_with_lines() {
        let (mut chip, mut raw) = (timing(), timing());
        assert_eq!(chip.run_until_irq(MOST_TICKS), Ok(raw.run_until_irq_raw(MOST_TICKS)));
        let seen = chip.step_raw(Event::Read(255));
        let seen = Seen { number: 9, ..seen };
        assert!(seen.irq && seen.txda && seen.op == 0xff);
        let refused = Refused { refusal: Refusal::OverLimit, seen };
        assert_eq!(chip.run_until_irq(MOST_TICKS + 1), Err(refused));
        let refused = unsound().run_until_irq(0).expect_err("it is unsound");
        assert_eq!((refused.refusal, refused.seen), (Refusal::Unsound, Seen { number: 1, ..Seen::default() }));
    }
}
