//! Captures in few words: wires `!` A and `"` B, at 9,600 bits a second, 8 data bits and no parity where nothing else is said.

use crate::capture::{capture, Request};
use crate::dump::time_of;
use crate::Captured;
use std::collections::BTreeMap;

/// Code 11: "24" ticks a pulse, and 16 pulses a bit.
pub const PULSE: u64 = 24;
pub const BIT: u64 = 16 * PULSE;

/// What no capture writes: no mark has it, nor a byte that these tests send.
pub const UNWRITTEN: u8 = 0x1d;

/// "`$timescale 1 ns $end`, `$scope module duart $end`, eleven as `$var wire 1 ! TxDA $end` .., `$upscope $end`,
/// `$enddefinitions $end`" (order 6), with the codes and names given.
pub fn header(wires: &[(&str, &str)]) -> String {
    let lines = wires.iter().map(|(code, name)| format!("$var wire 1 {code} {name} $end\n"));
    let lines: String = lines.collect();
    format!("$timescale 1 ns $end\n$scope module duart $end\n{lines}$upscope $end\n$enddefinitions $end\n")
}

pub fn two_wires() -> String {
    header(&[("!", "A"), ("\"", "B")])
}

/// A capture under way: by their time, the lines of a time.
#[derive(Default)]
pub struct Capture {
    times: BTreeMap<u64, String>,
}

impl Capture {
    /// A time with no value line, if it has none yet.
    pub fn time(mut self, time: u64) -> Capture {
        self.times.entry(time).or_default();
        self
    }

    pub fn value(mut self, time: u64, line: &str) -> Capture {
        self.times.entry(time).or_default().push_str(&format!("{line}\n"));
        self
    }

    /// Levels of a code from a tick on, so many ticks each, and the end of the last one; blanks are passed over.
    pub fn levels(self, code: &str, tick: u64, each: u64, levels: &str) -> Capture {
        let levels: Vec<char> = levels.chars().filter(|level| *level != ' ').collect();
        let end = tick + each * levels.len() as u64;
        let told = (tick..).step_by(each as usize).zip(levels);
        let told = told.fold(self, |all, (tick, level)| all.value(time_of(tick), &format!("{level}{code}")));
        told.time(time_of(end))
    }

    /// What follows the header.
    pub fn lines(&self) -> String {
        let times = self.times.iter().map(|(time, lines)| format!("#{time}\n{lines}"));
        times.collect()
    }

    pub fn text(&self) -> String {
        two_wires() + &self.lines()
    }

    /// The characters of A.
    pub fn a(&self) -> Vec<(u8, u8)> {
        Reading::AT_9600.of(self.text()).map(|[a, _]| a).expect("it is inside the subset")
    }
}

/// What a capture is read by.
#[derive(Clone, Copy)]
pub struct Reading<'a> {
    pub mr1: u8,
    pub acr_bit_7: bool,
    pub code: u8,
    pub names: [&'a [u8]; 2],
}

impl Reading<'_> {
    pub const AT_9600: Reading<'static> = Reading { mr1: 0x13, acr_bit_7: false, code: 11, names: [b"A", b"B"] };

    /// Into these logs.
    pub fn filling(&self, text: impl AsRef<[u8]>, log_a: &mut [u8], log_b: &mut [u8], channel_b: bool) -> Captured {
        let Reading { mr1, acr_bit_7, code, names } = *self;
        let asked = Request { mr1, acr_bit_7, code, text: text.as_ref(), names };
        capture(asked, log_a, log_b, channel_b)
    }

    /// The characters of A and of B, data and marks, or the number; what is past them stays.
    pub fn of(&self, text: impl AsRef<[u8]>) -> Result<[Vec<(u8, u8)>; 2], u8> {
        let mut logs = [vec![UNWRITTEN; 50_000], vec![UNWRITTEN; 50_000]];
        let [log_a, log_b] = &mut logs;
        let lengths = [false, true].map(|channel_b| self.filling(text.as_ref(), log_a, log_b, channel_b));
        let [a, b] = lengths.map(|told| told.length);
        assert!(log_a[a..].iter().chain(&log_b[b..]).all(|byte| *byte == UNWRITTEN));
        assert_eq!(lengths[0].number, lengths[1].number, "it goes by no channel");
        match lengths[0].number {
            0 => Ok([pairs(&log_a[..a]), pairs(&log_b[..b])]),
            number => {
                assert_eq!([a, b], [0, 0]);
                Err(number)
            }
        }
    }
}

pub fn pairs(log: &[u8]) -> Vec<(u8, u8)> {
    log.chunks(2).map(|pair| (pair[0], pair[1])).collect()
}

/// The number of a text that is read at 9,600 bits a second, by wires A and B.
pub fn number(text: impl AsRef<[u8]>) -> u8 {
    Reading::AT_9600.of(text).err().unwrap_or(0)
}
