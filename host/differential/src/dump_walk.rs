//! What the lines do while a list is taken, time by time: what the sights of a dump are told from.

use duart::{Duart, Event, EventRecord, Seen};

/// TxDA, TxDB, IRQ and OP0 to OP7.
pub const WIRES: usize = 11;

/// The levels of the eleven wires, TxDA's the lowest bit.
pub type Levels = u16;

fn levels_of(seen: Seen) -> Levels {
    let wires = [seen.txda, seen.txdb, !seen.irq];
    let lines = wires.iter().rev().fold(0, |levels, high| levels << 1 | u16::from(*high));
    lines | u16::from(seen.op) << 3
}

/// One time: the levels before its first event and after each.
pub struct Time {
    pub tick: u64,
    pub before: Levels,
    pub after: Vec<Levels>,
}

impl Time {
    pub fn last(&self) -> Levels {
        self.after.last().copied().unwrap_or(self.before)
    }

    /// What is written of it, where it is not time 0.
    pub fn changed(&self) -> Levels {
        self.before ^ self.last()
    }

    /// The wires that move in each event.
    pub fn moves(&self) -> impl Iterator<Item = Levels> + '_ {
        let before = [self.before].into_iter().chain(self.after.iter().copied());
        before.zip(&self.after).map(|(before, after)| before ^ after)
    }

    /// Wires that have moved and stand where they stood.
    pub fn taken_back(&self) -> Levels {
        self.moves().fold(0, |all, moved| all | moved) & !self.changed()
    }

    /// Wires that have moved more than once.
    pub fn moved_again(&self) -> Levels {
        let mut seen = 0;
        self.moves().fold(0, |again, moved| {
            let both = again | seen & moved;
            seen |= moved;
            both
        })
    }
}

/// A list taken event by event, up to a refused one.
pub struct Walk {
    /// Time 0, each time at which a wire moves, and the last one.
    pub times: Vec<Time>,
    /// The place and the number of the event that ended it.
    pub refused: Option<(usize, u8)>,
    /// Were that event passed over, a wire would move after it.
    pub would_go_on: bool,
}

impl Walk {
    pub fn of(mut chip: Duart, events: &[EventRecord]) -> Walk {
        let before = levels_of(chip.step_raw(Event::Read(255)));
        let zero = Time { tick: 0, before, after: Vec::new() };
        let mut walk = Walk { times: vec![zero], refused: None, would_go_on: false };
        for (place, event) in events.iter().enumerate() {
            let seen = chip.step_record(*event);
            if seen.number != 0 {
                walk.refused = Some((place, seen.number));
                walk.would_go_on = moves(chip, &events[place + 1..], walk.last());
                break;
            }
            walk.take(event.kind == 5, levels_of(seen));
        }
        walk
    }

    /// The levels at the end.
    pub fn last(&self) -> Levels {
        self.times.last().map_or(0, Time::last)
    }

    fn take(&mut self, is_tick: bool, levels: Levels) {
        let now = self.times.last_mut().expect("there is time 0");
        if !is_tick {
            now.after.push(levels);
            return;
        }
        let (tick, before) = (now.tick + 1, now.last());
        if now.tick > 0 && now.moves().all(|moved| moved == 0) {
            self.times.pop();
        }
        self.times.push(Time { tick, before, after: vec![levels] });
    }
}

/// Whether the events, those that are refused left out, move a wire from these levels.
fn moves(mut chip: Duart, events: &[EventRecord], levels: Levels) -> bool {
    let mut answers = events.iter().map(|event| chip.step_record(*event));
    answers.any(|seen| seen.number == 0 && levels_of(seen) != levels)
}

#[cfg(test)]
mod tests {
    use super::Walk;
    use duart::{Duart, Event};

    #[test]
    fn a_list_is_told_time_by_time() {
        let (set, reset) = (Event::Write(14, 2), Event::Write(15, 3));
        let events = [Event::Write(14, 1), Event::Tick, Event::Tick, set, reset, Event::Read(2)];
        let walk = Walk::of(Duart::fresh(), &events.map(Into::into));
        assert_eq!((walk.times.len(), walk.refused), (2, Some((5, 3))));
        let (zero, two) = (&walk.times[0], &walk.times[1]);
        assert_eq!((zero.before, zero.last()), (0x7ff, 0x7f7));
        assert_eq!((two.tick, two.changed(), two.taken_back(), two.moved_again()), (2, 0x008, 0x010, 0x010));
    }
}
