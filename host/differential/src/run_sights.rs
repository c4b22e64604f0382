//! What is counted of a run, from the device before it and after it.

use crate::call_sights::{CallCoverage, CallSight};
use crate::modes::{echoes, receiver_of, side_of};
use crate::script::Channel;
use duart::device::{Device, Side};
use duart::{Duart, Event, Ran, MOST_TICKS};
use model::clock::Source;

/// For A and for B: sending, receiving, sending a break.
const LONG: [[CallSight; 3]; 2] = [
    [
        CallSight::LongSendingOnA,
        CallSight::LongReceivingOnA,
        CallSight::LongInBreakOnA,
    ],
    [
        CallSight::LongSendingOnB,
        CallSight::LongReceivingOnB,
        CallSight::LongInBreakOnB,
    ],
];

/// A divider whose phase is not below the period of its code: a CSR write restarts the phases, so no script reaches that.
fn is_past_its_period(side: &Side, acr: u8) -> bool {
    let sides = [(side.csr >> 4, side.phases.receiver), (side.csr & 15, side.phases.transmitter)];
    sides.iter().any(|(code, phase)| match Source::from_code(*code, acr >> 7 == 1) {
        Source::Ticks(period) => phase.0 >= u64::from(period),
        _ => false,
    })
}

/// CTS is chosen and high: IP0 for A, IP1 for B.
fn is_held_by_cts(device: &Device, channel: Channel) -> bool {
    let side = side_of(device, channel);
    let cts = if channel == Channel::A { 0x01 } else { 0x02 };
    let waits = side.transmitter.enabled && side.transmitter.full;
    waits && side.mr2 & 0x10 != 0 && device.front.inputs.levels & cts != 0
}

impl CallCoverage {
    pub fn see_run(&mut self, before: &Device, budget: u32, ran: Ran, after: &Device) {
        self.runs += 1;
        let over = budget > MOST_TICKS;
        match ran.number {
            0 => self.see_ticks(before, budget, ran, after),
            1 => {
                self.note_if(true, CallSight::RunRefusedBy1);
                self.note_if(over, CallSight::RunRefusedBy1Before9);
            }
            _ => {
                self.note_if(true, CallSight::RunRefusedBy9);
                self.note_if(ran.irq, CallSight::RunRefusedBy9Asserted);
            }
        }
    }

    fn see_ticks(&mut self, before: &Device, budget: u32, ran: Ran, after: &Device) {
        let moved = ran.ticks > 0;
        let stopped = ran.irq && moved;
        let sides = [&before.front.a, &before.front.b];
        let past = sides.iter().any(|side| is_past_its_period(side, before.front.acr));
        let odd = sides.iter().any(|side| echoes(side) && side.transmitter.phase != 0);
        self.note_if(budget == 0, CallSight::RunNoBudget);
        self.note_if(budget > 0 && ran.irq && !moved, CallSight::RunAssertedAlready);
        self.note_if(stopped && ran.ticks < budget, CallSight::RunStopsBefore);
        self.note_if(stopped && ran.ticks == budget, CallSight::RunStopsInLast);
        self.note_if(moved && !ran.irq, CallSight::RunNever);
        let off = sides.iter().all(|side| side.csr >> 4 > 12 && side.csr & 15 > 12);
        self.note_if(moved && off, CallSight::RunOffTicks);
        self.note_if(moved && past, CallSight::RunPastThePeriod);
        self.note_if(moved && odd, CallSight::RunOddEcho);
        if stopped {
            let isr = Duart::from_device(*after).step_raw(Event::Read(5)).data;
            let bits = isr & after.front.imr;
            (0..7).for_each(|bit| self.stops[bit] += u64::from((bits >> bit) & 1));
        }
        if budget == MOST_TICKS && moved {
            self.note_if(ran.ticks == budget, CallSight::LongToItsEnd);
            self.note_if(stopped, CallSight::LongStopped);
            self.see_long(before);
        }
    }

    fn see_long(&mut self, device: &Device) {
        self.counter_modes[usize::from((device.front.acr >> 4) & 7)] += 1;
        for (channel, sights) in Channel::BOTH.into_iter().zip(LONG) {
            let (side, sampler) = (side_of(device, channel), &receiver_of(device, channel).sampler);
            let receiving = |phases: &[u8]| side.enabled && phases.contains(&sampler.phase);
            self.channel_modes[usize::from(side.mr2 >> 6)] += 1;
            self.codes[usize::from(side.csr >> 4)] += u64::from(side.enabled);
            self.codes[usize::from(side.csr & 15)] += u64::from(side.transmitter.enabled);
            self.note_if(side.transmitter.phase == 1, sights[0]);
            self.note_if(receiving(&[1, 2]), sights[1]);
            self.note_if(side.transmitter.phase == 2, sights[2]);
            self.note_if(receiving(&[3]), CallSight::LongAfterLowStop);
            self.note_if(receiving(&[4]), CallSight::LongInBreakReceived);
            self.note_if(is_held_by_cts(device, channel), CallSight::LongHeldByCts);
        }
    }
}

#[cfg(test)]
mod tests {
    use crate::call_sights::{CallCoverage, CallSight};
    use duart::{Device, Duart, Event};

    /// What is counted of a run of a fresh chip with the timer on ticks, preload 2, as `alter` has it.
    fn coverage_of(budget: u32, alter: fn(&mut Device)) -> CallCoverage {
        let mut chip = Duart::fresh();
        for (register, byte) in [(7, 2), (4, 0x60), (5, 0x08)] {
            assert!(chip.step(Event::Write(register, byte)).is_ok());
        }
        let mut before = *chip.device();
        alter(&mut before);
        let mut chip = Duart::from_device(before);
        let ran = chip.run_until_irq_raw(budget);
        let mut coverage = CallCoverage::default();
        coverage.see_run(&before, budget, ran, chip.device());
        coverage
    }

    #[test]
    fn a_run_is_counted_by_how_it_ends() {
        assert_eq!(coverage_of(0, |_| ()).of(CallSight::RunNoBudget), 1);
        assert_eq!(coverage_of(3, |_| ()).of(CallSight::RunNever), 1);
        let last = coverage_of(4, |_| ());
        assert_eq!((last.of(CallSight::RunStopsInLast), last.stops[3]), (1, 1));
        assert_eq!(coverage_of(5, |_| ()).of(CallSight::RunStopsBefore), 1);
        assert_eq!(coverage_of(1_000_001, |_| ()).of(CallSight::RunRefusedBy9), 1);
        let asserted = coverage_of(5, |device| device.front.timer.ready = true);
        assert_eq!(asserted.of(CallSight::RunAssertedAlready), 1);
    }

    #[test]
    fn a_long_one_is_counted_by_what_runs() {
        let long = coverage_of(1_000_000, |device| {
            device.front.a.enabled = true;
            device.front.a.csr = 0xd0;
            device.front.b.transmitter.phase = 2;
        });
        assert_eq!((long.codes[13], long.codes[0], long.counter_modes[6]), (1, 0, 1));
        let noted = [CallSight::LongStopped, CallSight::LongInBreakOnB, CallSight::LongToItsEnd];
        assert_eq!(noted.map(|sight| long.of(sight)), [1, 1, 0]);
    }
}
