//! What a line does in a drawn capture: frames of the format, some with a wrong parity bit or a low stop, breaks, short lows,
//! and needles at the pulses that are sampled. Edges stand at the times of ticks, at a pulse's very tick or near it.

use crate::generator::Generator;
use model::clock::Source;
use model::dump::time_of;

/// A level from a time on.
pub type Edge = (u64, bool);

/// What a capture is read by, less its text.
#[derive(Clone, Copy)]
pub struct Setting {
    pub mr1: u8,
    pub acr7: bool,
    pub code: u8,
}

impl Setting {
    pub fn drawn(draws: &mut Generator) -> Setting {
        let parity = draws.pick(&[0x00, 0x04, 0x08, 0x0c, 0x10, 0x10, 0x14]);
        let unused = draws.pick(&[0x00, 0x00, 0x20, 0x40, 0x60]);
        let code = draws.small(13);
        Setting { mr1: parity | unused | draws.small(4), acr7: draws.flip(), code }
    }

    /// The ticks of a pulse.
    pub fn period(self) -> u64 {
        match Source::from_code(self.code, self.acr7) {
            Source::Ticks(period) => u64::from(period),
            _ => unreachable!("no other code is drawn"),
        }
    }

    pub fn width(self) -> u8 {
        (self.mr1 & 3) + 5
    }

    pub fn has_parity(self) -> bool {
        self.mr1 >> 3 & 3 != 2
    }

    /// The pulses from p to the stop sample.
    pub fn pulses_to_stop(self) -> u64 {
        8 + 16 * (u64::from(self.width()) + u64::from(self.has_parity()) + 1)
    }
}

/// The last tick at which something begins, so that it ends before the last time there is.
const LAST_TICK: u64 = 14_600_000;

/// A line that is being drawn: where it stands, in ticks, and its edges so far.
pub struct Pen<'a> {
    setting: Setting,
    draws: &'a mut Generator,
    tick: u64,
    edges: Vec<(u64, bool)>,
    /// The low pulses, as far as they are known.
    starts: Vec<u64>,
}

/// So many things that a line does, and the ticks of the stop samples that are known.
pub fn wave(setting: Setting, things: u64, draws: &mut Generator) -> (Vec<Edge>, Vec<u64>) {
    let mut pen = Pen { setting, draws, tick: 0, edges: Vec::new(), starts: Vec::new() };
    pen.begin();
    for _ in 0..things {
        pen.act();
    }
    let stops = pen.starts.iter().map(|start| start + setting.pulses_to_stop() * setting.period()).collect();
    (pen.end(), stops)
}

impl Pen<'_> {
    fn period(&self) -> u64 {
        self.setting.period()
    }

    fn hold(&mut self, high: bool, pulses: u64) {
        if self.tick <= LAST_TICK {
            self.edges.push((self.tick, high));
            self.tick += pulses * self.period();
        }
    }

    /// Low from the start, high for some pulses, or nothing until later; one in eight is not at a pulse's tick.
    fn begin(&mut self) {
        let pulses = self.draws.between(1, 40);
        match self.draws.below(8) {
            0..=1 => self.hold(false, pulses),
            2..=4 => self.hold(true, pulses),
            5 => self.hold(true, 2),
            _ => self.tick = self.draws.pick(&[1, 2, 3, 17, 1_000, 20_000]) * self.period(),
        }
        if self.draws.one_in(8) {
            self.tick += self.draws.below(self.period());
        }
    }

    fn act(&mut self) {
        let few = self.draws.between(1, 12);
        match self.draws.below(24) {
            0 => self.hold(false, few),
            1 => self.hold(true, few),
            2 => self.broken(),
            3 => self.hold(true, 200),
            4..=5 => self.low_stop(),
            6..=8 => self.frame_of_zeros(),
            _ => {
                let stop = self.draws.pick(&[9, 16, 16, 16, 32]);
                self.frame(stop);
            }
        }
    }

    /// A start bit and the data, lowest bit first; a parity bit, wrong one time in eight; a stop of so many pulses.
    fn frame(&mut self, stop: u64) {
        let byte = self.draws.byte();
        self.bits(byte);
        self.hold(true, stop);
        if self.draws.one_in(4) {
            self.needle();
        }
    }

    fn bits(&mut self, byte: u8) {
        self.hold(true, 1);
        self.starts.push(self.tick);
        self.hold(false, 16);
        let width = self.setting.width();
        for bit in 0..width {
            self.hold(byte >> bit & 1 == 1, 16);
        }
        if self.setting.has_parity() {
            let ones = (u32::from(byte) & ((1 << width) - 1)).count_ones();
            let odd = self.setting.mr1 & 4 != 0;
            let forced = self.setting.mr1 & 8 != 0;
            let right = if forced { odd } else { (ones % 2 == 1) != odd };
            let wrong = self.draws.one_in(8);
            self.hold(right != wrong, 16);
        }
    }

    /// A frame whose stop is low, followed by 7, 8 or 9 lows after the sample, or by more.
    fn low_stop(&mut self) {
        let byte = self.draws.byte();
        self.bits(byte);
        let lows = self.draws.pick(&[7, 8, 9, 9, 40, 160]);
        self.hold(false, 9 + lows);
        let highs = self.draws.between(1, 20);
        self.hold(true, highs);
    }

    /// Data and parity bit low with a high stop, or a low one: a break or not, by the stop alone.
    fn frame_of_zeros(&mut self) {
        self.hold(true, 1);
        self.starts.push(self.tick);
        let bits = u64::from(self.setting.width()) + u64::from(self.setting.has_parity()) + 1;
        self.hold(false, 16 * bits);
        let stop = self.draws.pick(&[true, true, false]);
        self.hold(stop, 16);
        self.hold(true, 16);
    }

    /// A long low, and highs that are enough to end it, eight, or are not.
    fn broken(&mut self) {
        let bits = self.draws.between(10, 30);
        self.hold(false, 16 * bits);
        for _ in 0..self.draws.between(1, 3) {
            let highs = self.draws.pick(&[7, 8, 9]);
            self.hold(true, highs);
            self.hold(false, 20);
        }
        self.hold(true, 10);
    }

    /// At one of the last frame's samples, for a pulse, a tick or a nanosecond's while: the other level.
    fn needle(&mut self) {
        let start = self.starts.last().copied().unwrap_or(0);
        let sample = start + (8 + 16 * self.draws.below(11)) * self.period();
        let tick = sample + self.draws.pick(&[0, 0, 0, 1]);
        let before = self.edges.iter().rposition(|(at, _)| *at <= tick);
        let (place, high) = before.map_or((0, true), |place| (place + 1, self.edges[place].1));
        let next = self.edges.get(place).map_or(u64::MAX, |(at, _)| *at);
        let back = tick + self.draws.pick(&[1, 2, 3, 5]);
        if back < next && back <= LAST_TICK {
            self.edges.splice(place..place, [(tick, !high), (back, high)]);
        }
    }

    /// The edges at the times of their ticks; one wave in four has some a little off.
    fn end(self) -> Vec<Edge> {
        let off = self.draws.one_in(4);
        let mut time = 0;
        let mut edges = Vec::new();
        for (tick, high) in self.edges {
            let more = if off { self.draws.pick(&[0, 0, 1, 1, 270, 271]) } else { 0 };
            time = time.max(time_of(tick) + more);
            edges.push((time, high));
        }
        edges
    }
}

#[cfg(test)]
mod tests {
    use super::{wave, Setting};
    use crate::generator::Generator;

    #[test]
    fn its_edges_come_in_order_and_end_in_time() {
        for seed in 0..200 {
            let mut draws = Generator::with_seed(seed);
            let setting = Setting::drawn(&mut draws);
            let (edges, _) = wave(setting, 60, &mut draws);
            assert!(edges.windows(2).all(|pair| pair[0].0 <= pair[1].0), "{seed}");
            assert!(edges.iter().all(|(time, _)| *time <= 4_000_000_000), "{seed}");
        }
    }
}
