//! Order 6: "Show it on the analyser. From a sound state and a list of up to 1,000,000 events, write a value change
//! dump (IEEE 1364) into lent space". Every sentence in double quotes here is of that order.

use crate::chip::{Chip, Event, Seen};
use crate::refusals::{ACCEPTED, OVER_THE_LIMIT, SPACE_TOO_SHORT};
use std::io::Write;

/// "a list of up to 1,000,000 events"
pub const MOST_DUMPED: usize = 1_000_000;

/// "Lines, each ended by LF", before the first time.
pub const HEADER: &str = "\
$timescale 1 ns $end
$scope module duart $end
$var wire 1 ! TxDA $end
$var wire 1 \" TxDB $end
$var wire 1 # IRQ $end
$var wire 1 $ OP0 $end
$var wire 1 % OP1 $end
$var wire 1 & OP2 $end
$var wire 1 ' OP3 $end
$var wire 1 ( OP4 $end
$var wire 1 ) OP5 $end
$var wire 1 * OP6 $end
$var wire 1 + OP7 $end
$upscope $end
$enddefinitions $end
";

/// "eleven as `$var wire 1 ! TxDA $end` with codes ! to + in that order"
const WIRES: u8 = 11;
const FIRST_CODE: u8 = b'!';

/// What a dump answers: the number and "the length (0 if refused)".
#[derive(Clone, Copy, Debug, PartialEq, Eq)]
pub struct Dumped {
    pub number: u8,
    pub length: usize,
}

impl Chip {
    /// "Refusals, in this order: 1, 9 for a longer list, 8 for short space, which then stays." A model's state is never
    /// unsound, so there is no 1.
    pub fn dump(&self, events: &[Event], space: &mut [u8]) -> Dumped {
        if events.len() > MOST_DUMPED {
            return Dumped { number: OVER_THE_LIMIT, length: 0 };
        }
        let text = self.clone().text_of(events);
        match space.get_mut(..text.len()) {
            Some(place) => place.copy_from_slice(&text),
            None => return Dumped { number: SPACE_TOO_SHORT, length: 0 },
        }
        Dumped { number: ACCEPTED, length: text.len() }
    }

    /// "It stops before a refused event".
    fn text_of(&mut self, events: &[Event]) -> Vec<u8> {
        let mut dump = Dump::from(self.seen(ACCEPTED, 0, false));
        for event in events {
            let seen = self.step(*event);
            if seen.number != ACCEPTED {
                break;
            }
            dump.take(*event == Event::Tick, seen);
        }
        dump.end()
    }
}

/// "Tick n, from 1, stands at the whole part of n x 625,000 / 2,304 ns."
pub fn time_of(tick: u64) -> u64 {
    tick * 625_000 / 2_304
}

/// A dump under way, from what is seen of the chip.
pub struct Dump {
    text: Vec<u8>,
    /// The ticks so far; the last one's time is the time of what is seen.
    tick: u64,
    now: Levels,
    /// "those written before", none of which is there at time 0.
    written: Option<Levels>,
}

impl Dump {
    /// The lines that the state given drives.
    pub fn from(seen: Seen) -> Dump {
        Dump {
            text: HEADER.into(),
            tick: 0,
            now: Levels::of(seen),
            written: None,
        }
    }

    /// What is seen of an accepted event. "Events without a tick share the time of the last one".
    pub fn take(&mut self, is_tick: bool, seen: Seen) {
        if is_tick {
            self.write_time();
            self.tick += 1;
        }
        self.now = Levels::of(seen);
    }

    pub fn end(mut self) -> Vec<u8> {
        self.write_time();
        self.text
    }

    /// "all values at time 0, then only times with changes"; "at each time only the last values count, written where
    /// they differ from those written before."
    fn write_time(&mut self) {
        let changed = match self.written {
            Some(written) => Levels(written.0 ^ self.now.0),
            None => Levels::ALL,
        };
        if changed == Levels::NONE {
            return;
        }
        self.written = Some(self.now);
        writeln!(self.text, "#{}", time_of(self.tick)).expect("a Vec takes all");
        for wire in (0..WIRES).filter(|wire| changed.of_wire(*wire)) {
            let value = b'0' + u8::from(self.now.of_wire(wire));
            self.text.extend([value, FIRST_CODE + wire, b'\n']);
        }
    }
}

/// A bit for each wire, "TxDA, TxDB, IRQ as line level (asserted is 0) and OP0 to OP7", TxDA's the lowest.
#[derive(Clone, Copy, PartialEq, Eq)]
struct Levels(u16);

impl Levels {
    const NONE: Levels = Levels(0);
    const ALL: Levels = Levels((1 << WIRES) - 1);

    fn of(seen: Seen) -> Levels {
        let lines = [seen.txda, seen.txdb, !seen.irq].map(u16::from);
        Levels(lines[0] | lines[1] << 1 | lines[2] << 2 | u16::from(seen.op) << 3)
    }

    fn of_wire(self, wire: u8) -> bool {
        self.0 >> wire & 1 == 1
    }
}
