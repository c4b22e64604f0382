//! Dumps at the limit of their list and over it: 1,000,000 events with both channels busy, a rest behind them, one event
//! more, and an unsound device. A few seconds' work.

use crate::dump_draws::Shower;
use crate::dump_sights::DumpCoverage;
use crate::dumps::{Dumping, List, Shown};
use crate::generator::Generator;
use duart::{Duart, Event, EventRecord, MOST_DUMPED};

/// 38,400 bits a second: a frame of ten bits and a stop that is longer.
const FRAME: usize = 96 * 11;

/// Both channels send a drawn byte in each frame, and an output bit moves with it. The last of the list leaves OP0 low.
fn busy_list(draws: &mut Generator) -> Vec<EventRecord> {
    let mut events: Vec<Event> = Vec::with_capacity(MOST_DUMPED + 1);
    for base in [0, 8] {
        let writes = [(0, 0x13), (0, 0x07), (1, 0xcc), (2, 0x05)];
        events.extend(writes.map(|(register, byte)| Event::Write(base + register, byte)));
    }
    while events.len() < MOST_DUMPED {
        events.extend([3, 11].map(|register| Event::Write(register, draws.byte())));
        events.push(Event::Write(draws.pick(&[14, 15]), draws.byte()));
        events.extend([Event::Tick; FRAME]);
    }
    events.truncate(MOST_DUMPED - 1);
    events.push(Event::Write(14, 0x01));
    events.into_iter().map(EventRecord::from).collect()
}

pub fn run(seed: u64, coverage: &mut DumpCoverage) -> Dumping<()> {
    let mut draws = Generator::with_seed(seed);
    let mut list = List { events: busy_list(&mut draws), rest: 2 };
    let mut shower = Shower::new(Shown::fresh(), draws, coverage);
    shower.show(&list)?;
    list.events.push(Event::Tick.into());
    list.rest = 0;
    shower.show(&list)?;
    list.events[0].kind = 6;
    shower.show(&list)?;
    let mut device = *Duart::fresh().device();
    device.b.queue.count = 5;
    shower.shown = Shown::of_device(device);
    shower.show(&list)
}

#[cfg(test)]
mod tests {
    use super::busy_list;
    use crate::generator::Generator;
    use duart::MOST_DUMPED;

    #[test]
    fn the_list_is_as_long_as_it_may_be() {
        assert_eq!(busy_list(&mut Generator::with_seed(1)).len(), MOST_DUMPED);
    }
}
