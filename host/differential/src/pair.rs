//! The two chips side by side: each event goes to both, and their answers are compared in all seven fields.

use duart::{Device, Duart, EventRecord, Seen};

/// An event on which the two did not do the same.
#[derive(Clone, Copy, Debug, PartialEq, Eq)]
pub struct Difference {
    pub chip: Seen,
    pub model: Seen,
    /// The chip refused the event and its state is another all the same.
    pub altered: bool,
}

pub struct Pair {
    chip: Duart,
    model: model::Chip,
    /// The chip's state before the last event.
    before: Device,
    /// All events so far, so that a difference can be replayed.
    history: Vec<EventRecord>,
}

impl Pair {
    pub fn fresh() -> Pair {
        let chip = Duart::fresh();
        Pair {
            before: *chip.device(),
            chip,
            model: model::Chip::fresh(),
            history: Vec::new(),
        }
    }

    pub fn step(&mut self, record: EventRecord) -> Result<Seen, Difference> {
        self.history.push(record);
        self.before = *self.chip.device();
        let chip = self.chip.step_record(record);
        let model = seen_of(self.model.step(meaning(record)));
        let altered = chip.number != 0 && *self.chip.device() != self.before;
        if chip == model && !altered {
            Ok(chip)
        } else {
            Err(Difference {
                chip,
                model,
                altered,
            })
        }
    }

    /// The chip's state. It steers the scripts and says what they reached; it is compared with nothing, as
    /// the model keeps a state of another form.
    pub fn device(&self) -> &Device {
        self.chip.device()
    }

    pub fn device_before(&self) -> &Device {
        &self.before
    }

    pub fn history(&self) -> &[EventRecord] {
        &self.history
    }
}

/// What a record says: kinds 0 to 5 are in the order of `Event`, and a kind above 5 is a read of register 255.
pub fn meaning(record: EventRecord) -> model::Event {
    match record.kind {
        0 => model::Event::ChipReset,
        1 => model::Event::Read(record.reg),
        2 => model::Event::Write(record.reg, record.byte),
        3 => model::Event::Acknowledge,
        4 => model::Event::Pins(record.byte),
        5 => model::Event::Tick,
        _ => model::Event::Read(255),
    }
}

/// The model's answer in the chip's type. All fields are named, so that a new one cannot be forgotten.
pub fn seen_of(seen: model::Seen) -> Seen {
    let model::Seen {
        number,
        data,
        fresh,
        irq,
        txda,
        txdb,
        op,
    } = seen;
    Seen {
        number,
        data,
        fresh,
        irq,
        txda,
        txdb,
        op,
    }
}

#[cfg(test)]
mod tests {
    use super::{meaning, Pair};
    use duart::{Event, EventRecord};

    #[test]
    fn a_kind_above_5_is_a_read_of_register_255() {
        let record = EventRecord {
            kind: 6,
            reg: 1,
            byte: 9,
        };
        assert_eq!(meaning(record), model::Event::Read(255));
        assert_eq!(Pair::fresh().step(record).map(|seen| seen.number), Ok(2));
    }

    #[test]
    fn every_event_is_kept() {
        let mut pair = Pair::fresh();
        assert!(pair.step(Event::Tick.into()).is_ok());
        assert!(pair.step(Event::Read(2).into()).is_ok());
        assert_eq!(pair.history().len(), 2);
    }
}
