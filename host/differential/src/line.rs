//! What someone at the other end of RxD may do with it: characters, well formed and damaged, noise, starts
//! that are too short, and breaks.

use crate::generator::Generator;

/// The shortest break sent, in sixteenths of a bit.
const BREAK: u16 = 16 * 10;

/// A level held for so many sixteenths of a bit.
#[derive(Clone, Copy, Debug, PartialEq, Eq)]
pub struct Span {
    pub high: bool,
    pub sixteenths: u16,
}

impl Span {
    fn of(high: bool, sixteenths: u64) -> Span {
        Span {
            high,
            sixteenths: sixteenths as u16,
        }
    }

    /// A low at least as long as a start bit, eight data bits and a parity bit.
    pub fn is_break(self) -> bool {
        !self.high && self.sixteenths >= BREAK
    }

    /// How many pulses of the receiver's clock it lasts.
    pub fn pulses(self, one_x: bool) -> u16 {
        if one_x {
            (self.sixteenths / 16).max(1)
        } else {
            self.sixteenths
        }
    }
}

/// One thing sent into a receiver that is set by `mr1`.
pub fn burst(draws: &mut Generator, mr1: u8) -> Vec<Span> {
    match draws.below(32) {
        0..=15 => well_formed(draws, mr1),
        16..=18 => inverted_bit(draws, mr1),
        19..=22 => low_stop(draws, mr1),
        23..=25 => short_start(draws),
        26..=28 => noise(draws),
        _ => long_low(draws),
    }
}

/// The levels of a character before its stop: start, data lowest bit first, the right parity bit if any.
fn bits_of(mr1: u8, byte: u8) -> Vec<bool> {
    let width = 5 + (mr1 & 3);
    let data = (0..width).map(|bit| (byte >> bit) & 1 == 1);
    let mut bits: Vec<bool> = std::iter::once(false).chain(data).collect();
    let odd = (mr1 >> 2) & 1 == 1;
    match (mr1 >> 3) & 3 {
        0 => bits.push((bits.iter().filter(|bit| **bit).count() % 2 == 1) != odd),
        1 => bits.push(odd),
        _ => {}
    }
    bits
}

fn spans_of(bits: &[bool]) -> Vec<Span> {
    bits.iter().map(|high| Span::of(*high, 16)).collect()
}

/// A byte, the ends of the range more often than the others.
fn some_byte(draws: &mut Generator) -> u8 {
    match draws.below(6) {
        0 => 0,
        1 => 255,
        _ => draws.byte(),
    }
}

/// The stop may be as short as its first half, where the receiver takes its only sample of it.
fn well_formed(draws: &mut Generator, mr1: u8) -> Vec<Span> {
    let byte = some_byte(draws);
    let mut spans = spans_of(&bits_of(mr1, byte));
    let stop = draws.pick(&[9, 16, 16, 16, 17, 40]);
    spans.push(Span::of(true, stop));
    spans
}

/// Any bit turned over: a wrong parity, or other data with the old parity, or a start that is none.
fn inverted_bit(draws: &mut Generator, mr1: u8) -> Vec<Span> {
    let mut bits = bits_of(mr1, draws.byte());
    let inverted = draws.below(bits.len() as u64) as usize;
    bits[inverted] = !bits[inverted];
    bits.push(true);
    spans_of(&bits)
}

/// The sample of the stop is its ninth sixteenth; from there eight lows make a new start, and eight more
/// confirm it.
fn low_stop(draws: &mut Generator, mr1: u8) -> Vec<Span> {
    let byte = some_byte(draws);
    let mut spans = spans_of(&bits_of(mr1, byte));
    spans.push(Span::of(false, draws.between(9, 34)));
    spans.push(Span::of(true, draws.between(1, 20)));
    spans
}

/// Lows about as long as what decides between a start and none.
fn short_start(draws: &mut Generator) -> Vec<Span> {
    let low = draws.between(1, 12);
    vec![Span::of(false, low), Span::of(true, draws.between(1, 20))]
}

fn noise(draws: &mut Generator) -> Vec<Span> {
    (0..draws.between(3, 20))
        .map(|_| Span::of(draws.flip(), draws.between(1, 24)))
        .collect()
}

/// A break, and highs about as long as what ends it, perhaps broken off.
fn long_low(draws: &mut Generator) -> Vec<Span> {
    let mut spans = vec![Span::of(false, u64::from(BREAK) + draws.below(60))];
    if draws.flip() {
        spans.push(Span::of(true, draws.between(1, 9)));
        spans.push(Span::of(false, draws.between(1, 20)));
    }
    spans.push(Span::of(true, draws.between(6, 20)));
    spans
}

#[cfg(test)]
mod tests {
    use super::{bits_of, burst, Span};
    use crate::generator::Generator;

    #[test]
    fn the_bits_are_those_of_the_models_frame() {
        for mr1 in (0..128u8).filter(|mr1| (mr1 >> 3) & 3 != 3) {
            for byte in 0..=255 {
                let bits = bits_of(mr1, byte);
                let mut space = [7; 192];
                let length = model::frame(mr1, 7, byte, &mut space).length;
                let mids: Vec<bool> = (0..bits.len()).map(|n| space[16 * n + 8] == 1).collect();
                assert_eq!(bits, mids, "MR1 {mr1}, byte {byte}");
                assert!(usize::from(length) > 16 * bits.len());
            }
        }
    }

    #[test]
    fn a_span_lasts_a_pulse_at_least() {
        let span = Span::of(true, 9);
        assert_eq!((span.pulses(false), span.pulses(true)), (9, 1));
    }

    #[test]
    fn no_burst_is_empty() {
        let mut draws = Generator::with_seed(3);
        assert!((0..1000).all(|_| !burst(&mut draws, 19).is_empty()));
    }
}
