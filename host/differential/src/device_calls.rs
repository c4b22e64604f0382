//! Order 5's calls on drawn devices, sound or not, of states that no script reaches too: a divider past its period, a frame in an
//! echo mode. What a run passes over must be what single ticks make of any sound device.

use crate::call_sights::CallCoverage;
use crate::calls::{Called, Trio};
use crate::devices::event_of_kind;
use crate::drawing;
use crate::generator::Generator;
use crate::replays::Caller;
use duart::{Device, Duart, Event, EventRecord};

/// Few events, so that most lists are done to their end or to a refused event.
const LIST: u64 = 24;

pub fn run(devices: u64, seed: u64, coverage: &mut CallCoverage) -> Called<()> {
    let mut draws = Generator::with_seed(seed.rotate_left(32));
    for _ in 0..devices {
        let device = some_device(&mut draws);
        let seed = draws.draw();
        try_device(&mut Caller::new(Trio::of_device(device), Generator::with_seed(seed), coverage))?;
    }
    Ok(())
}

/// A drawn IMR would assert IRQ at once, and a drawn count is far from its end: so half of them have a count that is near it, and
/// most an IMR of bits that ISR has not, or none. Some have no side that goes by ticks.
pub fn some_device(draws: &mut Generator) -> Device {
    let mut device = drawing::device(draws);
    if draws.one_in(4) {
        let codes = draws.pick(&[0xdd, 0xee]);
        device.front.a.csr |= codes;
        device.front.b.csr |= codes;
    }
    if draws.flip() {
        device.front.timer.count = draws.below(40) as u16;
    }
    let isr = Duart::from_device(device).step_raw(Event::Read(5)).data;
    match draws.below(8) {
        0 => {}
        1..=2 => device.front.imr = 0,
        _ => device.front.imr = draws.byte() & !isr,
    }
    device
}

fn try_device(caller: &mut Caller) -> Called<()> {
    let device = caller.trio.clone();
    let list = some_list(&mut caller.draws);
    let past = caller.draws.pick(&[0, 1, 5]);
    caller.poll(&list, list.len() + past)?;
    if caller.draws.one_in(16) {
        caller.refused(&list)?;
    }
    caller.trio = device;
    let budget = match caller.draws.below(64) {
        0..=7 => caller.draws.below(3),
        8..=43 => caller.draws.below(64),
        44..=62 => caller.draws.below(1_000),
        _ => caller.draws.below(15_000),
    };
    caller.run(budget as u32).map(|_| ())
}

/// Any events, half of them ticks.
pub fn some_list(draws: &mut Generator) -> Vec<EventRecord> {
    let kinds = [0, 1, 1, 2, 2, 3, 4, 5, 5, 5, 5, 5, 5, 5, 6];
    let length = draws.between(1, LIST);
    (0..length)
        .map(|_| {
            let kind = draws.pick(&kinds);
            event_of_kind(draws, kind)
        })
        .collect()
}

#[cfg(test)]
mod tests {
    use super::run;
    use crate::call_sights::{CallCoverage, CallSight};

    #[test]
    fn devices_of_each_sort_are_called() {
        let mut coverage = CallCoverage::default();
        assert!(run(300, 1, &mut coverage).is_ok());
        let met = [CallSight::PollRefusedBy1, CallSight::RunRefusedBy1, CallSight::RunPastThePeriod, CallSight::RunNever];
        assert!(met.iter().all(|sight| coverage.of(*sight) > 0));
    }
}
