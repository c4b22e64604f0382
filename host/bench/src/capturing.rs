//! Order 7: the captures that are read. One is the dump of a chip with both channels sending and receiving at 9,600 bits a
//! second, which is read at that rate; the other is as long as it may be, and has few changes.

use crate::chips::Chip;
use crate::dumping::{frame, FRAME_EVENTS};
use model::dump::time_of;

/// Enough for the characters of any capture.
const LOG: usize = duart::CAPTURE_SPACE;

/// 4,000,000,000 ns.
pub const MOST_TICKS: u32 = 14_745_600;

/// A text, and where its ends are: a run reads as much of it as it has ticks.
pub struct Capture {
    text: Vec<u8>,
    ends: Vec<usize>,
    ticks_an_end: u32,
    logs: [Vec<u8>; 2],
}

impl Capture {
    pub fn none() -> Capture {
        Capture { text: Vec::new(), ends: Vec::new(), ticks_an_end: 1, logs: [Vec::new(), Vec::new()] }
    }

    fn of(text: Vec<u8>, ends: Vec<usize>, ticks_an_end: u32) -> Capture {
        Capture { text, ends, ticks_an_end, logs: [vec![0; LOG], vec![0; LOG]] }
    }

    /// The dump of so many events of a chip that is ready for them, which can be ended after each frame. The plain writer
    /// writes it, whoever reads it.
    pub fn of_dump(chip: &model::Chip, events: u32) -> Capture {
        let list: Vec<model::Event> = (0..).flat_map(frame).take(events as usize).collect();
        let mut space = vec![0; 1_000 + list.len() / 4];
        let dumped = chip.dump(&list, &mut space);
        space.truncate(dumped.length);
        let ends = ends_of_frames(&space, events / FRAME_EVENTS);
        Capture::of(space, ends, FRAME_EVENTS)
    }

    /// A time with a short low on one of the lines every tenth of it.
    pub fn of_few_changes() -> Capture {
        let mut text: Vec<u8> = HEADER.into();
        let mut ends = vec![text.len()];
        for tenth in 1..=10 {
            let end = time_of(u64::from(MOST_TICKS) * tenth / 10);
            text.extend(format!("#{}\n0!\n#{}\n1!\n#{end}\n1\"\n", end - 300_000, end - 200_000).into_bytes());
            ends.push(text.len());
        }
        Capture::of(text, ends, MOST_TICKS / 10)
    }

    /// As much of it as so many ticks: how long the part of A's log is, and the sum of as much of both.
    pub fn read<C: Chip>(&mut self, ticks: u32) -> u64 {
        let end = self.ends[(ticks / self.ticks_an_end) as usize];
        let [log_a, log_b] = &mut self.logs;
        let length = C::capture(&self.text[..end], log_a, log_b);
        let bytes: u64 = log_a[..length].iter().chain(&log_b[..length]).map(|byte| u64::from(*byte)).sum();
        length as u64 + bytes
    }
}

const HEADER: &str = "$timescale 1 ns $end\n$scope module duart $end\n$var wire 1 ! TxDA $end\n$var wire 1 \" TxDB $end\n\
    $upscope $end\n$enddefinitions $end\n";

/// The places behind the last line before each frame's end, from the 0th on: a frame is 3,840 ticks.
fn ends_of_frames(text: &[u8], frames: u32) -> Vec<usize> {
    let mut ends = Vec::new();
    let mut place = 0;
    for line in text.split_inclusive(|byte| *byte == b'\n') {
        let time = std::str::from_utf8(line).ok().and_then(|line| line.strip_prefix('#')?.trim().parse::<u64>().ok());
        let passed = time.map_or(0, frames_before);
        ends.resize(ends.len().max(passed), place);
        place += line.len();
    }
    ends.resize(frames as usize + 1, place);
    ends
}

/// How many frames have ended before a time, the 0th, which ends at time 0, too.
fn frames_before(time: u64) -> usize {
    let ticks = u64::from(crate::loads::FRAME_9600);
    (0..).take_while(|frame| time_of(ticks * frame) < time).count()
}

#[cfg(test)]
mod tests {
    use super::*;
    use crate::loads::Load;

    fn read(load: Load, ticks: u32) -> u64 {
        let mut ready = load.ready::<model::Chip>(ticks);
        load.run(&mut ready, ticks)
    }

    /// A character in each frame on each of the two lines, after the first.
    #[test]
    fn both_lines_are_busy() {
        let mut ready = Load::Capture.ready::<model::Chip>(20 * FRAME_EVENTS);
        ready.capture.read::<model::Chip>(20 * FRAME_EVENTS);
        let [log_a, log_b] = &ready.capture.logs;
        let data = |log: &[u8]| log[..36].iter().step_by(2).copied().collect::<Vec<u8>>();
        let first = data(log_a)[0];
        assert_eq!(data(log_a), (first..first + 18).collect::<Vec<u8>>());
        assert_eq!(data(log_b), (first..first + 18).map(|byte| !byte).collect::<Vec<u8>>());
    }

    #[test]
    fn more_ticks_are_more_characters() {
        assert!(read(Load::Capture, 2 * FRAME_EVENTS) < read(Load::Capture, 10 * FRAME_EVENTS));
        assert!(read(Load::CaptureLong, MOST_TICKS / 10) < read(Load::CaptureLong, MOST_TICKS));
    }

    #[test]
    fn the_long_one_is_as_long_as_it_may_be() {
        let capture = Capture::of_few_changes();
        assert!(capture.text.ends_with(b"\n#4000000000\n1\"\n"));
    }
}
