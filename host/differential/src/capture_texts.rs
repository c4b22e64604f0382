//! Drawn captures: wires with odd codes and names, the two that are named with waves on them, the others with noise.

use crate::capture_lines::{Lines, Value, LAST_TIME};
use crate::capture_waves::{wave, Edge, Setting};
use crate::captures::Asked;
use crate::generator::Generator;
use model::dump::time_of;
use std::collections::BTreeMap;

/// A capture that is inside the subset, with what it is read by.
pub struct Drawn {
    pub setting: Setting,
    pub lines: Lines,
    /// The places of the wires that are A's and B's; they may be one.
    pub named: [usize; 2],
}

const CODES: &[u8] = b"#$01!~\"x";
const NAMES: [&str; 14] =
    ["$end", "$upscope", "$enddefinitions", "0", "OP[3]", "#5", "1!", "$var", "RxDA", "RxDB", "RxD", "RxDA1", "!", "wire"];

impl Drawn {
    pub fn drawn(draws: &mut Generator) -> Drawn {
        let setting = Setting::drawn(draws);
        let wires = some_wires(draws);
        let count = wires.len() as u64;
        let a = draws.below(count) as usize;
        let b = if draws.one_in(6) { a } else { draws.below(count) as usize };
        let times = some_times(setting, [a, b], wires.len(), draws);
        Drawn { setting, lines: Lines { wires, times }, named: [a, b] }
    }

    /// The same with another text.
    pub fn asked_with(&self, text: Vec<u8>) -> Asked {
        let Setting { mr1, acr7, code } = self.setting;
        Asked { mr1, acr7, code, text, names: self.named.map(|wire| self.lines.wires[wire].1.clone()) }
    }

    pub fn asked(&self) -> Asked {
        self.asked_with(self.lines.text())
    }
}

/// "1 to 16 wires (names of 1 to 32 characters and one-character codes, ! to ~, each once)"
fn some_wires(draws: &mut Generator) -> Vec<(u8, Vec<u8>)> {
    let count = draws.pick(&[1, 2, 2, 2, 3, 5, 11, 16]);
    let mut wires: Vec<(u8, Vec<u8>)> = Vec::new();
    while wires.len() < count {
        let code = if draws.flip() { draws.pick(CODES) } else { b'!' + draws.small(94) };
        let name = some_name(draws);
        if wires.iter().all(|(other, called)| *other != code && *called != name) {
            wires.push((code, name));
        }
    }
    wires
}

fn some_name(draws: &mut Generator) -> Vec<u8> {
    match draws.below(8) {
        0..=3 => draws.pick(&NAMES).as_bytes().to_vec(),
        4 => vec![b'n'; draws.pick(&[1, 31, 32, 32])],
        _ => (0..draws.between(1, 32)).map(|_| b'!' + draws.small(94)).collect(),
    }
}

fn some_times(setting: Setting, named: [usize; 2], wires: usize, draws: &mut Generator) -> Vec<(u64, Vec<Value>)> {
    if draws.one_in(64) {
        return Vec::new();
    }
    let mut times: BTreeMap<u64, Vec<Value>> = BTreeMap::new();
    let mut ends = Vec::new();
    let things = draws.pick(&[0, 1, 2, 5, 5, 9, 20, 60]);
    for wire in if named[0] == named[1] { &named[..1] } else { &named[..] } {
        let (edges, stops) = wave(setting, things, draws);
        ends.extend(stops.into_iter().rev().take(2));
        put(&mut times, *wire, edges, draws);
    }
    add_noise(&mut times, named, wires, draws);
    finish(&mut times, &ends, wires, setting, draws);
    times.into_iter().collect()
}

/// The edges of a wire among those of others; some are said before or after by the other level, of which the last counts, and
/// some twice.
fn put(times: &mut BTreeMap<u64, Vec<Value>>, wire: usize, edges: Vec<Edge>, draws: &mut Generator) {
    for (time, high) in edges {
        let values = times.entry(time).or_default();
        match draws.below(16) {
            0 => values.extend([(wire, !high), (wire, high)]),
            1 => values.extend([(wire, high), (wire, high)]),
            2 => values.insert(0, (wire, high)),
            _ => values.push((wire, high)),
        }
    }
}

fn add_noise(times: &mut BTreeMap<u64, Vec<Value>>, named: [usize; 2], wires: usize, draws: &mut Generator) {
    for wire in (0..wires).filter(|wire| !named.contains(wire)) {
        let noise = noise(times, draws);
        put(times, wire, noise, draws);
    }
}

/// A wire that is not named moves at times of the others and between them.
fn noise(times: &BTreeMap<u64, Vec<Value>>, draws: &mut Generator) -> Vec<Edge> {
    let known: Vec<u64> = times.keys().copied().collect();
    let most = known.last().copied().unwrap_or(1_000);
    let mut edges: Vec<Edge> = (0..draws.below(6))
        .map(|_| {
            let time = if known.is_empty() || draws.flip() { draws.below(most + 1) } else { draws.pick(&known) };
            (time, draws.flip())
        })
        .collect();
    edges.sort_unstable();
    edges
}

/// A last time: none beside the last edge's; a stop sample's very time, where one is known, or beside it, and what follows is
/// cut; some while later; or the last there can be. One in four has a value of any wire there.
fn finish(times: &mut BTreeMap<u64, Vec<Value>>, ends: &[u64], wires: usize, setting: Setting, draws: &mut Generator) {
    let last = times.keys().next_back().copied().unwrap_or(0);
    let end = match draws.below(8) {
        0 => last,
        1..=3 if !ends.is_empty() => time_of(draws.pick(ends)) + draws.pick(&[0, 0, 0, 1]),
        7 if draws.one_in(20) => LAST_TIME,
        _ => last + time_of(setting.period() * draws.between(1, 400)),
    };
    let end = end.min(LAST_TIME);
    drop(times.split_off(&(end + 1)));
    let values = times.entry(end).or_default();
    if draws.one_in(4) {
        values.push((draws.below(wires as u64) as usize, draws.flip()));
    }
}

#[cfg(test)]
mod tests {
    use super::Drawn;
    use crate::generator::Generator;

    #[test]
    fn all_are_inside_the_subset_and_most_have_characters() {
        let mut draws = Generator::with_seed(1);
        let mut read = 0;
        for _ in 0..300 {
            let told = Drawn::drawn(&mut draws).asked().characters();
            let [a, b] = told.unwrap_or_else(|number| panic!("refused by {number}"));
            read += u64::from(!a.is_empty() || !b.is_empty());
        }
        assert!(read > 150, "{read}");
    }
}
