//! Order 5: "A whole poll at once", and its companion, which "runs ticks until IRQ is asserted". Every sentence
//! in double quotes here is of that order.

use crate::chip::{Chip, Event, Seen};
use crate::refusals::{ACCEPTED, OVER_THE_LIMIT, SPACE_TOO_SHORT};

/// "one call over a lent list of event records, up to 4,096"
pub const MOST_EVENTS: usize = 4_096;

/// "a budget of up to 1,000,000"
pub const MOST_TICKS: u32 = 1_000_000;

/// What a poll answers: the call's own number, and "the count says how many were written".
#[derive(Clone, Copy, Debug, PartialEq, Eq)]
pub struct Polled {
    pub number: u8,
    pub count: usize,
}

impl Polled {
    /// "nothing is written and the count is 0."
    fn refused(number: u8) -> Polled {
        Polled { number, count: 0 }
    }
}

/// What a run answers: the number, "how many ticks it took", and the lines then.
#[derive(Clone, Copy, Debug, PartialEq, Eq)]
pub struct Ran {
    pub number: u8,
    pub ticks: u32,
    pub irq: bool,
    pub txda: bool,
    pub txdb: bool,
    pub op: u8,
}

impl Chip {
    /// "equal to the same events one by one". "It ends at the first refused event; answers up to and including
    /// that one are written, later ones stay, the count says how many were written, and the call itself
    /// answers 0."
    pub fn poll(&mut self, events: &[Event], answers: &mut [Seen]) -> Polled {
        let number = poll_number(events.len(), answers.len());
        if number != ACCEPTED {
            return Polled::refused(number);
        }
        let mut count = 0;
        for (event, answer) in events.iter().zip(answers) {
            *answer = self.step(*event);
            count += 1;
            if answer.number != ACCEPTED {
                break;
            }
        }
        Polled { number, count }
    }

    /// "zero if IRQ is asserted already, otherwise the number of single ticks to that state", or the whole
    /// budget. IRQ is looked at after a whole tick.
    pub fn run(&mut self, budget: u32) -> Ran {
        if budget > MOST_TICKS {
            return self.ran(OVER_THE_LIMIT, 0);
        }
        let mut ticks = 0;
        while ticks < budget && !self.irq_is_asserted(self.isr()) {
            self.tick();
            ticks += 1;
        }
        self.ran(ACCEPTED, ticks)
    }

    /// The lines as the state drives them, where it is refused too.
    fn ran(&self, number: u8, ticks: u32) -> Ran {
        let lines = self.seen(number, 0, false);
        Ran {
            number,
            ticks,
            irq: lines.irq,
            txda: lines.txda,
            txdb: lines.txdb,
            op: lines.op,
        }
    }
}

/// "Refusals, in this order and before any event: 1, 8 for answer space shorter than the list, 9 for a list or
/// budget over its limit". A model's state is never unsound.
fn poll_number(events: usize, space: usize) -> u8 {
    if space < events {
        SPACE_TOO_SHORT
    } else if events > MOST_EVENTS {
        OVER_THE_LIMIT
    } else {
        ACCEPTED
    }
}
