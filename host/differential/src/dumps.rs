//! Order 6's dump beside the model's: the number, the length and every byte of the space, those past the text as they were.

use crate::pair::meaning;
use crate::sound;
use duart::{dump_space, Device, Duart, DumpAnswer, EventRecord, MOST_DUMPED};
use model::dump::Dump;

/// What no text has in it: a byte that holds it was not written.
const UNTOUCHED: u8 = 0xa5;

/// A list as it crosses: its events, and a rest of so many bytes, one or two, which "is no event" (duart.h).
#[derive(Clone)]
pub struct List {
    pub events: Vec<EventRecord>,
    pub rest: usize,
}

impl List {
    pub fn of(events: &[EventRecord]) -> List {
        List { events: events.to_vec(), rest: 0 }
    }

    /// The rest is the beginning of a chip reset, which would show where a wire is low.
    fn bytes(&self) -> Vec<u8> {
        let records = self.events.iter().flat_map(|event| [event.kind, event.reg, event.byte]);
        records.chain([0, 0].into_iter().take(self.rest)).collect()
    }

    fn meanings(&self) -> Vec<model::Event> {
        self.events.iter().map(|event| meaning(*event)).collect()
    }
}

/// A dump that was not answered as it should be.
pub struct Failure {
    pub why: &'static str,
    call: String,
    device: Device,
}

impl Failure {
    pub fn print(&self) {
        println!("a dump is not the model's: {}", self.why);
        println!("{}", self.call);
        println!("device: {:?}", self.device);
    }
}

pub type Dumping<T> = Result<T, Box<Failure>>;

/// A chip, and the model of it where there is one: a drawn device has none, and its text is what the model's writer makes
/// of the chip's own answers one by one.
#[derive(Clone)]
pub struct Shown {
    pub chip: Duart,
    pub model: Option<model::Chip>,
}

impl Shown {
    pub fn fresh() -> Shown {
        Shown { chip: Duart::fresh(), model: Some(model::Chip::fresh()) }
    }

    pub fn of_device(device: Device) -> Shown {
        Shown { chip: Duart::from_device(device), model: None }
    }

    /// Both take an event.
    pub fn step(&mut self, event: EventRecord) {
        let _seen = self.chip.step_record(event);
        if let Some(model) = self.model.as_mut() {
            model.step(meaning(event));
        }
    }

    /// A dump into so many bytes.
    pub fn dump(&self, list: &List, size: usize) -> Dumping<DumpAnswer> {
        let (mut space, mut expected) = (vec![UNTOUCHED; size], vec![UNTOUCHED; size]);
        let said = self.chip.dump_bytes_raw(&list.bytes(), &mut space);
        let wanted = self.expect(list, &mut expected);
        let why = if said.number != wanted.number {
            "the number"
        } else if said.length != wanted.length {
            "the length"
        } else if space != expected {
            "a byte of the space"
        } else if said.length > dump_space(list.events.len()) {
            "a text that is longer than the header allows"
        } else {
            return Ok(said);
        };
        let call = describe(list, (said, wanted), (&space, &expected));
        Err(Box::new(Failure { why, call, device: *self.chip.device() }))
    }

    fn expect(&self, list: &List, space: &mut [u8]) -> DumpAnswer {
        match &self.model {
            Some(model) => {
                let model::Dumped { number, length } = model.dump(&list.meanings(), space);
                DumpAnswer { number, length }
            }
            None => dump_singly(&self.chip, &list.events, space),
        }
    }
}

/// Order 6: "Refusals, in this order: 1, 9 for a longer list, 8 for short space, which then stays."
fn dump_singly(chip: &Duart, events: &[EventRecord], space: &mut [u8]) -> DumpAnswer {
    let refused = |number| DumpAnswer { number, length: 0 };
    if !sound::is_sound(chip.device()) {
        return refused(1);
    }
    if events.len() > MOST_DUMPED {
        return refused(9);
    }
    let text = text_singly(chip.clone(), events);
    match space.get_mut(..text.len()) {
        Some(place) => place.copy_from_slice(&text),
        None => return refused(8),
    }
    DumpAnswer { number: 0, length: text.len() }
}

/// The lines before any event are those of a read that is always refused.
fn text_singly(mut chip: Duart, events: &[EventRecord]) -> Vec<u8> {
    let mut dump = Dump::from(model_seen(chip.step_raw(duart::Event::Read(255))));
    for event in events {
        let seen = chip.step_record(*event);
        if seen.number != 0 {
            break;
        }
        dump.take(event.kind == 5, model_seen(seen));
    }
    dump.end()
}

/// The chip's answer in the model's type. All fields are named, so that a new one cannot be forgotten.
fn model_seen(seen: duart::Seen) -> model::Seen {
    let duart::Seen { number, data, fresh, irq, txda, txdb, op } = seen;
    model::Seen { number, data, fresh, irq, txda, txdb, op }
}

/// The first byte that differs, with the lines before it.
fn describe(list: &List, said: (DumpAnswer, DumpAnswer), spaces: (&[u8], &[u8])) -> String {
    let differs = spaces.0.iter().zip(spaces.1).position(|(one, other)| one != other);
    let begin = differs.map_or(0, |place| place.saturating_sub(60));
    let shown = |space: &[u8]| String::from_utf8_lossy(&space[begin..space.len().min(begin + 90)]).into_owned();
    format!(
        "{} events and {} bytes, {} bytes of space: {:?}\nsaid:    {:?}\nmodel:   {:?}\nfirst differing byte: {differs:?}, from {begin} on\n\
         said:    {:?}\nmodel:   {:?}",
        list.events.len(),
        list.rest,
        spaces.0.len(),
        &list.events[..list.events.len().min(200)],
        said.0,
        said.1,
        shown(spaces.0),
        shown(spaces.1)
    )
}

#[cfg(test)]
mod tests {
    use super::{List, Shown};
    use duart::{Duart, DumpAnswer, Event};

    #[test]
    fn a_fresh_chip_agrees() {
        let mut list = List::of(&[Event::Tick, Event::Write(14, 1), Event::Read(2), Event::Tick].map(Into::into));
        list.rest = 2;
        assert_eq!(list.bytes(), [5, 0, 0, 2, 14, 1, 1, 2, 0, 5, 0, 0, 0, 0]);
        for (size, number) in [(380, 0), (379, 8), (0, 8)] {
            let said = Shown::fresh().dump(&list, size).unwrap_or_else(|failure| panic!("{}", failure.why));
            assert_eq!(said.number, number);
        }
    }

    #[test]
    fn a_device_of_its_own_is_no_fresh_one() {
        let mut device = *Duart::fresh().device();
        device.front.outputs.bits = 0x80;
        let list = List::of(&[]);
        assert!(matches!(Shown::of_device(device).dump(&list, 372), Ok(DumpAnswer { number: 0, length: 372 })));
        device.a.queue.count = 9;
        assert!(matches!(Shown::of_device(device).dump(&list, 372), Ok(DumpAnswer { number: 1, length: 0 })));
    }
}
