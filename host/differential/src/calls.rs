//! Order 5's two calls beside the same events one by one. One chip takes a list by `poll` and ticks by `run_until_irq`; a second
//! takes the same events by single steps; the model, where there is one, takes them by its own two calls. Compared are the number,
//! the count, every place of the answer space, those past the count as they were, the ticks, the lines and the device.

use crate::pair::{meaning, seen_of};
use crate::sound;
use duart::{Device, Duart, Event, EventRecord, Polled, Ran, Seen, MOST_EVENTS, MOST_TICKS};

/// What no event is answered: a place that holds it was not written.
const UNTOUCHED: Seen = Seen {
    number: 0xa5,
    data: 0x5a,
    fresh: true,
    irq: true,
    txda: false,
    txdb: true,
    op: 0xc3,
};

/// A call that was not answered as it should be.
pub struct Failure {
    pub why: &'static str,
    /// Which call it was, what was said to it and what should have been.
    call: String,
    before: Device,
    after: Device,
    single: Device,
}

impl Failure {
    pub fn print(&self) {
        println!("a call is not what the same events are one by one: {}", self.why);
        println!("{}", self.call);
        println!("device: {:?}\nafter:  {:?}\nsingle: {:?}", self.before, self.after, self.single);
    }
}

pub type Called<T> = Result<T, Box<Failure>>;

/// The two chips and the model.
#[derive(Clone)]
pub struct Trio {
    chip: Duart,
    single: Duart,
    model: Option<model::Chip>,
}

/// A poll that was compared: what it answered, and the answers that it wrote.
pub struct Poll {
    pub polled: Polled,
    pub answers: Vec<Seen>,
}

impl Trio {
    pub fn fresh() -> Trio {
        Trio {
            chip: Duart::fresh(),
            single: Duart::fresh(),
            model: Some(model::Chip::fresh()),
        }
    }

    /// Of any device whatever, with no model, which has sound states alone and in another form.
    pub fn of_device(device: Device) -> Trio {
        Trio {
            chip: Duart::from_device(device),
            single: Duart::from_device(device),
            model: None,
        }
    }

    pub fn device(&self) -> &Device {
        self.chip.device()
    }

    fn failure(&self, why: &'static str, call: String, before: Device) -> Box<Failure> {
        Box::new(Failure {
            why,
            call,
            before,
            after: *self.chip.device(),
            single: *self.single.device(),
        })
    }

    // ------------------------------------------------------------ a poll

    pub fn poll(&mut self, events: &[EventRecord], space: usize) -> Called<Poll> {
        let before = *self.chip.device();
        let (mut answers, mut expected) = (vec![UNTOUCHED; space], vec![UNTOUCHED; space]);
        let polled = self.chip.poll_raw(events, &mut answers);
        let wanted = poll_singly(&mut self.single, events, &mut expected);
        let fault = if polled != wanted {
            Some("the number or the count of a poll")
        } else if answers != expected {
            Some("an answer of a poll, or a place past its count")
        } else if self.chip != self.single {
            Some("the device after a poll")
        } else {
            self.fault_of_model_poll(events, polled, &answers)
        };
        if let Some(why) = fault {
            let call = describe_poll(events, space, (polled, wanted), (&answers, &expected));
            return Err(self.failure(why, call, before));
        }
        answers.truncate(polled.count);
        Ok(Poll { polled, answers })
    }

    fn fault_of_model_poll(&mut self, events: &[EventRecord], polled: Polled, answers: &[Seen]) -> Option<&'static str> {
        let model = self.model.as_mut()?;
        let meanings: Vec<model::Event> = events.iter().map(|event| meaning(*event)).collect();
        let unwritten = model::Chip::fresh().step(model::Event::Read(255));
        let mut written = vec![unwritten; answers.len()];
        let said = model.poll(&meanings, &mut written);
        let mut pairs = written.iter().zip(answers).take(polled.count);
        if (said.number, said.count) != (polled.number, polled.count) {
            Some("the number or the count of a poll is not the model's")
        } else if pairs.any(|(model, chip)| seen_of(*model) != *chip) {
            Some("an answer of a poll is not the model's")
        } else {
            None
        }
    }

    // ------------------------------------------------------------ a run

    pub fn run(&mut self, budget: u32) -> Called<Ran> {
        let before = *self.chip.device();
        let ran = self.chip.run_until_irq_raw(budget);
        let wanted = run_singly(&mut self.single, budget);
        let said = self.model.as_mut().map(|model| ran_of(model.run(budget)));
        let why = if ran != wanted {
            "the number, the ticks or a line of a run"
        } else if self.chip != self.single {
            "the device after a run"
        } else if said.map_or(false, |said| said != ran) {
            "the number, the ticks or a line of a run is not the model's"
        } else {
            return Ok(ran);
        };
        let call = format!("a run with a budget of {budget}\nsaid:    {ran:?}\nsingle:  {wanted:?}\nmodel:   {said:?}");
        Err(self.failure(why, call, before))
    }
}

/// Order 5: "Refusals, in this order and before any event: 1, 8 for answer space shorter than the list, 9 for a list or budget over
/// its limit; nothing is written and the count is 0."
fn poll_number(device: &Device, events: usize, space: usize) -> u8 {
    if !sound::is_sound(device) {
        1
    } else if space < events {
        8
    } else if events > MOST_EVENTS {
        9
    } else {
        0
    }
}

/// "It ends at the first refused event; answers up to and including that one are written".
fn poll_singly(chip: &mut Duart, events: &[EventRecord], answers: &mut [Seen]) -> Polled {
    let number = poll_number(chip.device(), events.len(), answers.len());
    let mut count = 0;
    while number == 0 && count < events.len() {
        answers[count] = chip.step_record(events[count]);
        count += 1;
        if answers[count - 1].number != 0 {
            break;
        }
    }
    Polled { number, count }
}

/// "zero if IRQ is asserted already, otherwise the number of single ticks to that state". The lines before any tick are those of
/// a read that is always refused.
fn run_singly(chip: &mut Duart, budget: u32) -> Ran {
    let mut seen = chip.step_raw(Event::Read(255));
    let mut ticks = 0;
    let number = match seen.number {
        1 => 1,
        _ if budget > MOST_TICKS => 9,
        _ => 0,
    };
    while number == 0 && ticks < budget && !seen.irq {
        seen = chip.step_raw(Event::Tick);
        ticks += 1;
    }
    let Seen { irq, txda, txdb, op, .. } = seen;
    Ran { number, ticks, irq, txda, txdb, op }
}

/// The model's answer in the chip's type.
fn ran_of(ran: model::Ran) -> Ran {
    let model::Ran { number, ticks, irq, txda, txdb, op } = ran;
    Ran { number, ticks, irq, txda, txdb, op }
}

/// The list whole, as it may be short, and the first answers that differ.
fn describe_poll(events: &[EventRecord], space: usize, said: (Polled, Polled), answers: (&[Seen], &[Seen])) -> String {
    let shown = &events[..events.len().min(said.1.count.max(1) + 1)];
    let differs = answers.0.iter().zip(answers.1).position(|(one, other)| one != other);
    let differing = differs.map(|place| (place, answers.0[place], answers.1[place]));
    format!(
        "a poll of {} events with {space} places: {shown:?}\nsaid:    {:?}\nsingle:  {:?}\nanswers: {differing:?}",
        events.len(),
        said.0,
        said.1
    )
}

#[cfg(test)]
mod tests {
    use super::{poll_singly, run_singly, Trio, UNTOUCHED};
    use duart::{Duart, Event, Polled};

    #[test]
    fn the_singles_go_by_the_order() {
        let events = [Event::Read(12), Event::Acknowledge, Event::Tick].map(Into::into);
        let mut answers = [UNTOUCHED; 3];
        let polled = poll_singly(&mut Duart::fresh(), &events, &mut answers);
        assert_eq!(polled, Polled { number: 0, count: 2 });
        assert_eq!((answers[0].data, answers[1].number, answers[2]), (15, 6, UNTOUCHED));
        assert_eq!(poll_singly(&mut Duart::fresh(), &events, &mut answers[..2]).number, 8);
        assert_eq!(run_singly(&mut Duart::fresh(), 7).ticks, 7);
        assert_eq!(run_singly(&mut Duart::fresh(), 1_000_001).number, 9);
    }

    #[test]
    fn a_trio_agrees() {
        let mut trio = Trio::fresh();
        let events = [Event::Write(5, 1), Event::Write(2, 4), Event::Acknowledge].map(Into::into);
        assert!(matches!(trio.poll(&events, 4), Ok(poll) if poll.answers[2].data == 15));
        assert!(matches!(trio.run(100), Ok(ran) if ran.irq && ran.ticks == 0));
    }

    #[test]
    fn a_device_of_its_own_is_no_fresh_one() {
        let mut device = *Duart::fresh().device();
        device.a.queue.count = 9;
        let mut trio = Trio::of_device(device);
        assert!(matches!(trio.poll(&[], 0), Ok(poll) if poll.polled.number == 1));
        assert!(matches!(trio.run(0), Ok(ran) if ran.number == 1 && ran.op == 0));
    }
}
