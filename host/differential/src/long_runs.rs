//! Runs with the largest budget, against as many single ticks: on every clock code, in every mode of the counter/timer and of a
//! channel, with both channels sending, receiving and in a break. A few are spent to the end, which is a second's work; the others
//! are stopped by IRQ.

use crate::call_sights::CallCoverage;
use crate::calls::{Called, Trio};
use crate::generator::Generator;
use crate::replays::Caller;
use duart::{mode, Event, MOST_TICKS};
use model::clock::Source;

/// One stop bit.
const ONE_STOP: u8 = 0x07;
/// One stop bit, CTS.
const WITH_CTS: u8 = 0x17;
/// RxDA and RxDB high or low; IP0 and IP1, CTS, stay high, and so do the clock pins.
const HIGH: u8 = 0xff;
const LOW: u8 = 0x3f;

/// What a channel is given to do.
#[derive(Clone, Copy)]
enum Work {
    /// Two characters.
    Send,
    Break,
    /// Nothing: it receives what is on RxD.
    Listen,
}

/// A chip before its run: of each channel CSR, MR2 and its work.
struct Case {
    csr: [u8; 2],
    mr2: [u8; 2],
    work: [Work; 2],
    acr: u8,
    preload: u16,
    imr: u8,
    /// Each level of both RxD for so many ticks, before the run.
    levels: &'static [(u8, u32)],
}

impl Case {
    /// Ticks in which a channel's transmitter has a pulse, if its clock has any.
    fn first_pulse(&self, place: usize) -> u32 {
        match Source::from_code(self.csr[place] & 15, self.acr >> 7 == 1) {
            Source::Ticks(period) => u32::from(period),
            _ => 2 * u32::from(self.preload),
        }
    }
}

/// A start bit that is under way; highs alone; at code 12 a character with a low stop, and a break that does not end.
const START: [(u8, u32); 2] = [(HIGH, 4_608), (LOW, 1)];
const QUIET: [(u8, u32); 1] = [(HIGH, 16)];
const LOW_STOP: [(u8, u32); 5] = [(HIGH, 12), (LOW, 96), (HIGH, 96), (LOW, 96 * 8), (HIGH, 0)];
const BROKEN: [(u8, u32); 2] = [(HIGH, 12), (LOW, 96 * 11)];

const NORMAL: [u8; 2] = [mode::NORMAL | ONE_STOP; 2];
const LOCAL: [u8; 2] = [mode::LOCAL_LOOPBACK | ONE_STOP; 2];

const CASES: [Case; 11] = [
    // The slowest clocks to the end, one channel in a break; the counter has no pulse of IP2.
    Case { csr: [0x01, 0x23], mr2: NORMAL, work: [Work::Send, Work::Break], acr: 0x00, preload: 9, imr: 0, levels: &START },
    // Code 13 to the end, the timer on ticks with an odd preload; B's pins stand still, and CTS holds its character.
    Case {
        csr: [0xdd, 0xef],
        mr2: [mode::LOCAL_LOOPBACK | ONE_STOP, mode::NORMAL | WITH_CTS],
        work: [Work::Send, Work::Send],
        acr: 0x60,
        preload: 77,
        imr: 0,
        levels: &QUIET,
    },
    // No side goes by ticks, so that only the timer ends a stretch: preload 0 means 65,536.
    Case { csr: [0xff, 0xee], mr2: NORMAL, work: [Work::Listen, Work::Send], acr: 0x60, preload: 0, imr: 0x08, levels: &QUIET },
    // Both channels looped; IRQ by the counter on TxCA 1X, on TxCB 1X and on ticks/16.
    Case { csr: [0x44, 0x55], mr2: LOCAL, work: [Work::Send, Work::Send], acr: 0x10, preload: 7, imr: 0x08, levels: &QUIET },
    Case { csr: [0x66, 0x77], mr2: LOCAL, work: [Work::Break, Work::Send], acr: 0xa0, preload: 11, imr: 0x08, levels: &QUIET },
    Case { csr: [0x88, 0x99], mr2: NORMAL, work: [Work::Send, Work::Break], acr: 0xb0, preload: 4_000, imr: 0x08, levels: &START },
    // The timer on IP2 and on IP2/16: no pulse of it; IRQ by a character that has come.
    Case { csr: [0xaa, 0xbb], mr2: LOCAL, work: [Work::Send, Work::Send], acr: 0x40, preload: 1, imr: 0x02, levels: &QUIET },
    Case { csr: [0xcc, 0xab], mr2: LOCAL, work: [Work::Break, Work::Send], acr: 0xd0, preload: 1, imr: 0x20, levels: &QUIET },
    // The echo modes, the timer on ticks/16.
    Case {
        csr: [0xc4, 0xce],
        mr2: [mode::AUTOMATIC_ECHO | ONE_STOP, mode::REMOTE_LOOPBACK | ONE_STOP],
        work: [Work::Listen, Work::Listen],
        acr: 0x70,
        preload: 1_500,
        imr: 0x08,
        levels: &START,
    },
    // After a low stop, and in a break that does not end.
    Case { csr: [0xcf, 0xcc], mr2: NORMAL, work: [Work::Listen; 2], acr: 0x70, preload: 999, imr: 0x08, levels: &LOW_STOP },
    Case { csr: [0xcc; 2], mr2: NORMAL, work: [Work::Listen, Work::Send], acr: 0x30, preload: 5_000, imr: 0x08, levels: &BROKEN },
];

pub fn run(seed: u64, coverage: &mut CallCoverage) -> Called<()> {
    for case in CASES {
        let mut caller = Caller::new(Trio::fresh(), Generator::with_seed(seed), coverage);
        prepare(&mut caller, &case)?;
        caller.run(MOST_TICKS)?;
        caller.poll(&[5, 1, 9, 3, 11, 6, 7].map(|register| Event::Read(register).into()), 7)?;
        caller.run(200)?;
    }
    Ok(())
}

fn write(caller: &mut Caller, register: u8, byte: u8) -> Called<()> {
    caller.poll(&[Event::Write(register, byte).into()], 1).map(|_| ())
}

/// The counter is started last, and what is under way then stays so in the run: a wait is a run with IRQ shut out.
fn prepare(caller: &mut Caller, case: &Case) -> Called<()> {
    let [high, low] = case.preload.to_be_bytes();
    for (register, byte) in [(6, high), (7, low), (4, case.acr)] {
        write(caller, register, byte)?;
    }
    for (place, base) in [0, 8].into_iter().enumerate() {
        let writes = [(0, 0x13), (0, case.mr2[place]), (1, case.csr[place]), (2, 0x05)];
        for (register, byte) in writes {
            write(caller, base + register, byte)?;
        }
    }
    for (levels, ticks) in case.levels {
        caller.poll(&[Event::Pins(*levels).into()], 1)?;
        caller.run(*ticks)?;
    }
    for (place, base) in [0, 8].into_iter().enumerate() {
        give(caller, case.work[place], base, case.first_pulse(place))?;
    }
    caller.poll(&[Event::Read(14).into()], 1)?;
    write(caller, 5, case.imr)
}

/// Two characters, the first of which has started, or a break that has begun.
fn give(caller: &mut Caller, work: Work, base: u8, first_pulse: u32) -> Called<()> {
    match work {
        Work::Send => {
            write(caller, base + 3, 0x35)?;
            caller.run(first_pulse)?;
            write(caller, base + 3, 0xca)
        }
        Work::Break => {
            write(caller, base + 2, 0x60)?;
            caller.run(first_pulse).map(|_| ())
        }
        Work::Listen => Ok(()),
    }
}

#[cfg(test)]
mod tests {
    use super::CASES;

    /// Codes 13 to 15 among them, as a receiver's or a transmitter's.
    #[test]
    fn every_code_and_every_mode_has_a_case() {
        let codes = |case: &super::Case| case.csr.map(|csr| [csr >> 4, csr & 15]).concat();
        assert!((0..16).all(|code| CASES.iter().any(|case| codes(case).contains(&code))));
        assert!((0..8).all(|mode| CASES.iter().any(|case| (case.acr >> 4) & 7 == mode)));
        assert!((0..4).all(|mode| CASES.iter().any(|case| case.mr2.iter().any(|mr2| mr2 >> 6 == mode))));
    }
}
