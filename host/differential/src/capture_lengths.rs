//! Captures at their limits: the most characters that a line can have, with logs for them, a byte less and many more, a stop
//! sample at the last time of all, and more times and values than 16 bits count.

use crate::capture_draws::Reader;
use crate::capture_lines::{Lines, LAST_TIME};
use crate::capture_sights::{CaptureCoverage, CaptureSight};
use crate::capture_texts::Drawn;
use crate::capture_waves::Setting;
use crate::captures::Reading;
use crate::generator::Generator;
use duart::{Channel, CAPTURE_SPACE};
use model::dump::time_of;

/// Code 12 of the first set.
const PERIOD: u64 = 6;
/// Ticks up to 4,000,000,000 ns.
const TICKS: u64 = 14_745_600;
/// More than 16 bits count.
const MANY: u64 = 70_000;

pub fn run(seed: u64, coverage: &mut CaptureCoverage) -> Reading<()> {
    let mut reader = Reader { draws: Generator::with_seed(seed), coverage };
    most(&mut reader)?;
    at_the_last_time(&mut reader)?;
    many_lines(&mut reader)
}

/// One wire with a code of 5 or 8 bits and these edges.
fn drawn(mr1: u8, mut edges: Vec<(u64, bool)>) -> Drawn {
    edges.retain(|(tick, _)| *tick <= TICKS);
    let mut times: Vec<(u64, Vec<(usize, bool)>)> = edges.iter().map(|(tick, high)| (time_of(*tick), vec![(0, *high)])).collect();
    if times.last().map(|(time, _)| *time) != Some(LAST_TIME) {
        times.push((LAST_TIME, Vec::new()));
    }
    let wires = vec![(b'#', b"RxD".to_vec())];
    Drawn { setting: Setting { mr1, acr7: false, code: 12 }, lines: Lines { wires, times }, named: [0, 0] }
}

/// 5 bits and no parity, 105 pulses each: low from p to the stop sample, which is high for one pulse.
fn most(reader: &mut Reader) -> Reading<()> {
    let starts = (0..).map(|frame| PERIOD * (2 + 105 * frame)).take_while(|start| *start <= TICKS);
    let edges = starts.flat_map(|start| [(start, false), (start + PERIOD * 104, true)]).collect();
    let asked = drawn(0x10, edges).asked();
    let (enough, short) = (CAPTURE_SPACE, CAPTURE_SPACE - 1);
    let all = [
        ([enough, enough], Channel::A),
        ([short, enough], Channel::B),
        ([enough, short], Channel::A),
        ([1 << 16, (1 << 16) + 1], Channel::B),
    ];
    for (sizes, channel) in all {
        let answer = asked.read(sizes, channel)?;
        let most = answer.number == 0 && answer.length == CAPTURE_SPACE;
        reader.coverage.note_if(most, CaptureSight::MostCharacters);
        reader.coverage.note_if(most && sizes[0] > 65_535, CaptureSight::LogsOver16Bits);
        reader.coverage.note_if(answer.number == 8, CaptureSight::MostShortByOne);
    }
    Ok(())
}

/// 8 bits and no parity: 152 pulses before the last there is, a start bit alone, and a stop that is high or low there.
fn at_the_last_time(reader: &mut Reader) -> Reading<()> {
    let start = TICKS - PERIOD * 152;
    for (stop, more) in [(true, 0), (false, 0), (true, PERIOD), (true, 1)] {
        let edges = vec![(start + more, false), (start + more + 9 * PERIOD, true), (TICKS, stop)];
        let asked = drawn(0x13, edges).asked();
        let read = asked.characters().map_or(0, |both| both[0].len());
        reader.coverage.note_if(read == 1 && !stop, CaptureSight::StopAtTheLastTime);
        reader.accepted(&asked, [2 * read, 2 * read])?;
    }
    Ok(())
}

/// Times at which another wire moves, and behind them a time at which the line is said high and low, low at last: a start.
fn many_lines(reader: &mut Reader) -> Reading<()> {
    let mut times: Vec<(u64, Vec<(usize, bool)>)> = (1..=MANY).map(|time| (time, vec![(1, time % 2 == 0)])).collect();
    times.push((MANY + 1, (0..MANY).map(|place| (0, place % 2 == 0)).collect()));
    times.push((MANY + time_of(10 * PERIOD), vec![(0, true)]));
    times.push((MANY + time_of(110 * PERIOD), Vec::new()));
    let wires = vec![(b'#', b"RxD".to_vec()), (b'!', b"other".to_vec())];
    let setting = Setting { mr1: 0x10, acr7: false, code: 12 };
    let asked = Drawn { setting, lines: Lines { wires, times }, named: [0, 0] }.asked();
    let answer = asked.read([2, 2], Channel::A)?;
    reader.coverage.note_if(answer.length == 2, CaptureSight::ManyLines);
    Ok(())
}
