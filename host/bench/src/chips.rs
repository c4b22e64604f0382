//! The two chips that are measured.

use std::ptr;

/// Order 5: "up to 4,096".
pub const MOST_EVENTS: usize = duart::MOST_EVENTS;
const _: () = assert!(MOST_EVENTS == model::calls::MOST_EVENTS);

/// The names of the two, as `bench run` takes them.
pub const PROVED: &str = "proved";
pub const PLAIN: &str = "plain";

/// A chip: the events of the model, and what it answers, as far as the wiring asks.
pub trait Chip {
    /// Events as it takes them in a list.
    type List;
    fn fresh() -> Self;
    /// TxDA, TxDB and the data byte of the answer.
    fn step(&mut self, event: model::Event) -> (bool, bool, u8);
    /// A poll of so many ticks: the count, and TxDA of the last answer. The list is there before it.
    fn poll_ticks(&mut self, ticks: usize) -> (usize, bool);
    /// The ticks of a run with this budget, and IRQ.
    fn run(&mut self, budget: u32) -> (u32, bool);
    fn list(events: &[model::Event]) -> Self::List;
    /// A dump of the first events of a list, and its length.
    fn dump(&self, list: &Self::List, events: usize, space: &mut [u8]) -> usize;
    /// A capture read at 9,600 bits a second, 8 data bits and no parity, and how long the filled part of A's log is. No chip
    /// is asked for it.
    fn capture(text: &[u8], log_a: &mut [u8], log_b: &mut [u8]) -> usize;
}

/// MR1, and the code of 9,600 bits a second in the first set.
const EIGHT_BITS: u8 = 0x13;
const CODE_9600: u8 = 11;
const NAMES: [&[u8]; 2] = [b"TxDA", b"TxDB"];

/// A value that the compiler knows nothing of: as on a board, the event is not known beforehand and the whole answer is
/// made. Else the compiler could make a step of the model for ticks alone, or leave out what nobody reads, which it
/// cannot do with the archive. (`black_box` is younger than Debian's rustc.)
fn unknown<T: Copy>(value: T) -> T {
    // SAFETY: a reference may be read from, and what it leads to may be copied.
    unsafe { ptr::read_volatile(&value) }
}

impl Chip for model::Chip {
    type List = Vec<model::Event>;

    fn fresh() -> model::Chip {
        model::Chip::fresh()
    }

    fn step(&mut self, event: model::Event) -> (bool, bool, u8) {
        let seen = unknown(model::Chip::step(self, unknown(event)));
        (seen.txda, seen.txdb, seen.data)
    }

    fn poll_ticks(&mut self, ticks: usize) -> (usize, bool) {
        const NONE: model::Seen = model::Seen {
            number: 0,
            data: 0,
            fresh: false,
            irq: false,
            txda: false,
            txdb: false,
            op: 0,
        };
        static TICKS: [model::Event; MOST_EVENTS] = [model::Event::Tick; MOST_EVENTS];
        let mut answers = [NONE; MOST_EVENTS];
        let polled = self.poll(unknown(&TICKS[..ticks]), &mut answers);
        (polled.count, unknown(&answers)[ticks - 1].txda)
    }

    fn run(&mut self, budget: u32) -> (u32, bool) {
        let ran = unknown(model::Chip::run(self, unknown(budget)));
        (ran.ticks, ran.irq)
    }

    fn list(events: &[model::Event]) -> Vec<model::Event> {
        events.to_vec()
    }

    fn dump(&self, list: &Vec<model::Event>, events: usize, space: &mut [u8]) -> usize {
        let dumped = model::Chip::dump(self, unknown(&list[..events]), space);
        assert_eq!(dumped.number, 0);
        dumped.length
    }

    fn capture(text: &[u8], log_a: &mut [u8], log_b: &mut [u8]) -> usize {
        let asked = model::capture::Request { mr1: EIGHT_BITS, acr_bit_7: false, code: CODE_9600, text, names: NAMES };
        let told = model::capture(unknown(asked), log_a, log_b, false);
        assert_eq!(told.number, 0);
        told.length
    }
}

fn proved_event(event: model::Event) -> duart::Event {
    match event {
        model::Event::ChipReset => duart::Event::ChipReset,
        model::Event::Read(register) => duart::Event::Read(register),
        model::Event::Write(register, byte) => duart::Event::Write(register, byte),
        model::Event::Acknowledge => duart::Event::Acknowledge,
        model::Event::Pins(levels) => duart::Event::Pins(levels),
        model::Event::Tick => duart::Event::Tick,
    }
}

impl Chip for duart::Duart {
    type List = Vec<duart::EventRecord>;

    fn fresh() -> duart::Duart {
        duart::Duart::fresh()
    }

    fn step(&mut self, event: model::Event) -> (bool, bool, u8) {
        let seen = self.step_raw(proved_event(event));
        (seen.txda, seen.txdb, seen.data)
    }

    fn poll_ticks(&mut self, ticks: usize) -> (usize, bool) {
        const TICK: duart::EventRecord = duart::EventRecord {
            kind: 5,
            reg: 0,
            byte: 0,
        };
        static TICKS: [duart::EventRecord; MOST_EVENTS] = [TICK; MOST_EVENTS];
        let mut answers = [duart::Seen::default(); MOST_EVENTS];
        let polled = self.poll_raw(&TICKS[..ticks], &mut answers);
        (polled.count, answers[ticks - 1].txda)
    }

    fn run(&mut self, budget: u32) -> (u32, bool) {
        let ran = self.run_until_irq_raw(budget);
        (ran.ticks, ran.irq)
    }

    fn list(events: &[model::Event]) -> Vec<duart::EventRecord> {
        events.iter().map(|event| proved_event(*event).into()).collect()
    }

    fn dump(&self, list: &Vec<duart::EventRecord>, events: usize, space: &mut [u8]) -> usize {
        let dumped = self.dump_raw(&list[..events], space);
        assert_eq!(dumped.number, 0);
        dumped.length
    }

    fn capture(text: &[u8], log_a: &mut [u8], log_b: &mut [u8]) -> usize {
        let [name_a, name_b] = NAMES;
        let asked = duart::Capture { mr1: EIGHT_BITS, acr7: false, code: CODE_9600, text, name_a, name_b };
        let told = duart::capture_raw(&asked, log_a, log_b, duart::Channel::A);
        assert_eq!(told.number, 0);
        told.length
    }
}
