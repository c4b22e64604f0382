//! Order 6: "Show it on the analyser." Sentences in double quotes are the order's.

use crate::{archive, Duart, EventRecord, Refusal};

/// The longest list of a [dump](Duart::dump).
pub const MOST_DUMPED: usize = 1_000_000;

/// So many bytes are enough for the text of so many events, whatever they are: 336 of the lines before time 0, 36 of
/// time 0, and for each tick at most 11 of its time and 33 of the eleven values.
///
/// ```
/// assert_eq!(duart::dump_space(0), 372); // the shortest text
/// ```
#[must_use]
pub const fn dump_space(events: usize) -> usize {
    336 + 36 + (11 + 33) * events
}

/// What a dump answers.
#[repr(C)]
#[derive(Clone, Copy, Debug, PartialEq, Eq)]
pub struct DumpAnswer {
    /// the call's own number: 0, 1 (the state is unsound), 9 (over [`MOST_DUMPED`]) or 8 (the space is shorter than the
    /// text). A refused event in the list does not show here.
    pub number: u8,
    /// the bytes of the text; 0 if the call is refused
    pub length: usize,
}

impl Duart {
    /// Writes what a logic analyser would show of the chip taking these events, up to [`MOST_DUMPED`], over the front of
    /// `space`: "a value change dump (IEEE 1364)" of "TxDA, TxDB, IRQ as line level (asserted is 0) and OP0 to OP7, all
    /// values at time 0, then only times with changes". The chip stays as it is. Answered is the length of the text,
    /// which is ASCII; what stands past it in `space` stays.
    ///
    /// Times are in nanoseconds: "Tick n, from 1, stands at the whole part of n x 625,000 / 2,304 ns", n counting the
    /// ticks of this list. "Events without a tick share the time of the last one; at each time only the last values
    /// count, written where they differ from those written before." Those before the first tick stand at time 0. The
    /// text ends with the last change.
    ///
    /// "It stops before a refused event": the text is that of the list cut there, and the call is accepted. A refused
    /// call is an error and writes nothing; in this order, [`Refusal::Unsound`], [`Refusal::OverLimit`] for a longer
    /// list, [`Refusal::SpaceShort`] for space shorter than this very text. [`dump_space`] of the list's length is
    /// always enough.
    ///
    /// ```
    /// use duart::{dump_space, Duart, Event, EventRecord, Refusal};
    ///
    /// # fn main() -> Result<(), Refusal> {
    /// let chip = Duart::fresh();
    /// let events = [Event::Tick, Event::Write(14, 0x81), Event::Tick, Event::Write(15, 0x01)].map(EventRecord::from);
    /// let mut space = [0; dump_space(4)];
    /// let length = chip.dump(&events, &mut space)?;
    /// let text = std::str::from_utf8(&space[..length]).unwrap();
    /// assert!(text.starts_with("$timescale 1 ns $end\n"));
    /// assert!(text.ends_with("#271\n0$\n0+\n#542\n1$\n")); // OP0 and OP7 low, then OP0 high again
    /// assert_eq!(chip.dump(&events, &mut space[..length - 1]), Err(Refusal::SpaceShort));
    /// # Ok(())
    /// # }
    /// ```
    pub fn dump(&self, events: &[EventRecord], space: &mut [u8]) -> Result<usize, Refusal> {
        let answer = self.dump_raw(events, space);
        match Refusal::of_number(answer.number) {
            None => Ok(answer.length),
            Some(refusal) => Err(refusal),
        }
    }

    /// The same, answered by the record.
    #[must_use = "its number says whether the call was refused, its length how much was written"]
    pub fn dump_raw(&self, events: &[EventRecord], space: &mut [u8]) -> DumpAnswer {
        self.dump_bytes_raw(archive::bytes_of(events), space)
    }

    /// The same of a list as it crosses into the archive, and may lie in a file: three bytes an event, which are the
    /// fields of an [`EventRecord`]. A rest of one or two bytes is no event.
    #[must_use = "its number says whether the call was refused, its length how much was written"]
    pub fn dump_bytes_raw(&self, events: &[u8], space: &mut [u8]) -> DumpAnswer {
        archive::dump(self.device, events, space)
    }
}

#[cfg(test)]
mod tests {
    use super::{dump_space, DumpAnswer, MOST_DUMPED};
    use crate::{Duart, Event, EventRecord, Refusal};

    /// What no dump writes.
    const UNWRITTEN: u8 = 0xa5;
    const TICK: EventRecord = EventRecord { kind: 5, reg: 0, byte: 0 };

    fn refused(number: u8) -> DumpAnswer {
        DumpAnswer { number, length: 0 }
    }

    fn unsound() -> Duart {
        let mut device = *Duart::fresh().device();
        device.a.queue.count = 200;
        Duart::from_device(device)
    }

    /// The text of a dump of a fresh chip, less its 336 bytes before time 0.
    fn times(events: &[EventRecord]) -> String {
        let mut space = vec![UNWRITTEN; dump_space(events.len())];
        let length = Duart::fresh().dump(events, &mut space).expect("there is space");
        assert!(space[length..].iter().all(|byte| *byte == UNWRITTEN));
        String::from_utf8(space[336..length].to_vec()).expect("it is ASCII")
    }

    #[test]
    fn nothing_happens() {
        let mut space = [UNWRITTEN; 373];
        assert_eq!(Duart::fresh().dump(&[], &mut space), Ok(372));
        assert!(space.starts_with(b"$timescale 1 ns $end\n$scope module duart $end\n$var wire 1 ! TxDA $end\n"));
        assert_eq!(space[372], UNWRITTEN);
        assert_eq!(times(&[TICK; 100]), "#0\n1!\n1\"\n1#\n1$\n1%\n1&\n1'\n1(\n1)\n1*\n1+\n");
    }

    /// At time 0 an event before the first tick; IRQ low when asserted; a value taken back at one time not written.
    #[test]
    fn changes_stand_at_the_times_of_ticks() {
        let events = [
            Event::Write(14, 0x01),
            Event::Tick,
            Event::Write(5, 0x01),
            Event::Write(2, 0x04),
            Event::Tick,
            Event::Write(14, 0x02),
            Event::Write(15, 0x02),
            Event::Tick,
            Event::Write(5, 0x00),
        ];
        let zero = "#0\n1!\n1\"\n1#\n0$\n1%\n1&\n1'\n1(\n1)\n1*\n1+\n";
        assert_eq!(times(&events.map(EventRecord::from)), format!("{zero}#271\n0#\n#813\n1#\n"));
    }

    #[test]
    fn a_refused_event_ends_the_text_and_is_no_error() {
        let set = EventRecord::from(Event::Write(14, 0x01));
        let events = [TICK, set, Event::Read(2).into(), TICK, Event::Write(15, 0x01).into()];
        assert_eq!(times(&events), times(&events[..2]));
        let unknown = EventRecord { kind: 6, ..TICK };
        assert_eq!(times(&[unknown, TICK, set]), times(&[]));
    }

    #[test]
    fn it_is_refused_in_order_and_writes_nothing() {
        let over = vec![TICK; MOST_DUMPED + 1];
        let dump = |chip: Duart, events: usize, size: usize| {
            let mut space = vec![UNWRITTEN; size];
            let answer = chip.dump_raw(&over[..events], &mut space);
            assert!(answer.number == 0 || space.iter().all(|byte| *byte == UNWRITTEN));
            answer
        };
        assert_eq!(dump(unsound(), MOST_DUMPED + 1, 0), refused(1));
        assert_eq!(dump(unsound(), 0, 372), refused(1));
        assert_eq!(dump(Duart::fresh(), MOST_DUMPED + 1, 0), refused(9));
        assert_eq!(dump(Duart::fresh(), MOST_DUMPED + 1, 372), refused(9));
        assert_eq!([0, 371].map(|size| dump(Duart::fresh(), 5, size)), [refused(8); 2]);
        assert_eq!(dump(Duart::fresh(), MOST_DUMPED, 372), DumpAnswer { number: 0, length: 372 });
        let errors = [(unsound(), 1, Refusal::Unsound), (Duart::fresh(), over.len(), Refusal::OverLimit)];
        for (chip, events, refusal) in errors {
            assert_eq!(chip.dump(&over[..events], &mut [0; 372]), Err(refusal));
        }
        assert_eq!(Duart::fresh().dump(&[], &mut [0; 371]), Err(Refusal::SpaceShort));
    }

    #[test]
    fn a_rest_of_one_or_two_bytes_is_no_event() {
        let bytes = [5, 0, 0, 2, 14, 1, 5, 0];
        let texts = [6, 7, 8].map(|size| {
            let mut space = [UNWRITTEN; dump_space(2)];
            let answer = Duart::fresh().dump_bytes_raw(&bytes[..size], &mut space);
            assert_eq!(answer, DumpAnswer { number: 0, length: 372 + 8 });
            space
        });
        assert!(texts[0] == texts[1] && texts[1] == texts[2]);
        let most = vec![5; 3 * MOST_DUMPED + 3];
        let number = |size: usize| Duart::fresh().dump_bytes_raw(&most[..size], &mut [0; 372]).number;
        assert_eq!([1, 2, 3].map(|rest| number(3 * MOST_DUMPED + rest)), [0, 0, 9]);
    }
}
