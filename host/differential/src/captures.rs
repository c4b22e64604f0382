//! Order 7's capture beside the model's: the number, the length, and every byte of both logs, those past the characters as
//! they were, and those beside the logs too.

use duart::{Capture, CaptureAnswer, Channel, CAPTURE_SPACE};
use model::capture::Request;
use model::character::Character;

/// What a capture is read by, with its text and its names.
#[derive(Clone)]
pub struct Asked {
    pub mr1: u8,
    pub acr7: bool,
    pub code: u8,
    pub text: Vec<u8>,
    pub names: [Vec<u8>; 2],
}

/// A capture that was not answered as it should be.
pub struct Failure {
    pub why: &'static str,
    call: String,
}

impl Failure {
    pub fn print(&self) {
        println!("a capture is not the model's: {}", self.why);
        println!("{}", self.call);
    }
}

pub type Reading<T> = Result<T, Box<Failure>>;

/// The characters of both channels, or the number.
pub type Characters = Result<[Vec<Character>; 2], u8>;

/// What stands behind a text: it would end its last line and go on.
const BEHIND: &[u8] = b"\n#4000000000\n";

/// So many bytes stand before a log and behind it.
const BESIDE: usize = 4;

/// A log in its space.
fn log(space: &mut [u8]) -> &mut [u8] {
    let behind = space.len() - BESIDE;
    &mut space[BESIDE..behind]
}

/// What stands in a log's space before the call: no byte beside its equal, so that one which is written shows.
fn untouched(size: usize) -> Vec<u8> {
    (0..BESIDE + size + BESIDE).map(|place| (place as u8).wrapping_mul(37) ^ 0xa5).collect()
}

impl Asked {
    fn request(&self) -> Request<'_> {
        let [name_a, name_b] = &self.names;
        Request { mr1: self.mr1, acr_bit_7: self.acr7, code: self.code, text: &self.text, names: [name_a, name_b] }
    }

    /// With the text that stands at the beginning of this.
    fn capture<'a>(&'a self, text: &'a [u8]) -> Capture<'a> {
        let [name_a, name_b] = &self.names;
        Capture { mr1: self.mr1, acr7: self.acr7, code: self.code, text: &text[..self.text.len()], name_a, name_b }
    }

    /// By the model.
    pub fn characters(&self) -> Characters {
        self.request().characters()
    }

    /// Into logs of so many bytes.
    pub fn read(&self, sizes: [usize; 2], channel: Channel) -> Reading<CaptureAnswer> {
        let (mut logs, mut expected) = (sizes.map(untouched), sizes.map(untouched));
        let [log_a, log_b] = &mut logs;
        let text = [&self.text[..], BEHIND].concat();
        let said = duart::capture_raw(&self.capture(&text), log(log_a), log(log_b), channel);
        let [log_a, log_b] = &mut expected;
        let model::Captured { number, length } = model::capture(self.request(), log(log_a), log(log_b), channel == Channel::B);
        let wanted = CaptureAnswer { number, length };
        let why = if said.number != wanted.number {
            "the number"
        } else if said.length != wanted.length {
            "the length"
        } else if logs[0] != expected[0] {
            "a byte of A's log, or beside it"
        } else if logs[1] != expected[1] {
            "a byte of B's log, or beside it"
        } else if said.length > CAPTURE_SPACE {
            "more characters than the header allows"
        } else {
            return Ok(said);
        };
        let call = self.describe(sizes, channel, [said, wanted]) + &differing(&logs, &expected);
        Err(Box::new(Failure { why, call }))
    }

    /// One that is told of otherwise than by the two answers.
    pub fn failure(&self, why: &'static str, told: String) -> Box<Failure> {
        Box::new(Failure { why, call: format!("{}{told}", self.told()) })
    }

    fn describe(&self, sizes: [usize; 2], channel: Channel, [said, wanted]: [CaptureAnswer; 2]) -> String {
        format!("{}logs of {sizes:?} bytes, channel {channel:?}\nsaid:  {said:?}\nmodel: {wanted:?}\n", self.told())
    }

    fn told(&self) -> String {
        let [name_a, name_b] = [&self.names[0], &self.names[1]].map(|name| String::from_utf8_lossy(name));
        let (text, more) = self.text.split_at(self.text.len().min(4_000));
        format!(
            "MR1 {}, ACR bit 7 {}, code {}, A {name_a:?}, B {name_b:?}, {} bytes of text, {} not shown:\n{}\n",
            self.mr1,
            self.acr7,
            self.code,
            self.text.len(),
            more.len(),
            String::from_utf8_lossy(text)
        )
    }
}

/// The first byte of each log's space that differs, with those from there on.
fn differing(logs: &[Vec<u8>; 2], expected: &[Vec<u8>; 2]) -> String {
    let told = logs.iter().zip(expected).zip(["A", "B"]).map(|((log, expected), channel)| {
        let place = log.iter().zip(expected).position(|(one, other)| one != other);
        let shown = |log: &[u8]| log.iter().skip(place.unwrap_or(0)).take(12).copied().collect::<Vec<u8>>();
        format!("{channel}: first differing byte {place:?} of its space, said {:?}, model {:?}\n", shown(log), shown(expected))
    });
    told.collect()
}

#[cfg(test)]
mod tests {
    use super::{untouched, Asked};
    use duart::Channel;

    #[test]
    fn a_capture_agrees() {
        let header = "$timescale 1 ns $end\n$scope module duart $end\n$var wire 1 ! A $end\n$upscope $end\n";
        let text = format!("{header}$enddefinitions $end\n#104167\n0!\n#208334\n1!\n#2000000\n");
        let names = [b"A".to_vec(), b"A".to_vec()];
        let asked = Asked { mr1: 0x13, acr7: false, code: 11, text: text.into_bytes(), names };
        for (sizes, number) in [([2, 2], 0), ([2, 1], 8), ([5, 3], 0), ([0, 0], 8)] {
            let said = asked.read(sizes, Channel::B).unwrap_or_else(|failure| panic!("{}", failure.why));
            assert_eq!((said.number, said.length), (number, if number == 0 { 2 } else { 0 }));
        }
    }

    #[test]
    fn no_two_bytes_beside_each_other_are_equal() {
        assert!(untouched(1_000).windows(2).all(|pair| pair[0] != pair[1]));
    }
}
