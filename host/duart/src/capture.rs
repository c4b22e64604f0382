//! Order 7: "Read a capture from the mill." Sentences in double quotes are the order's.

use crate::{archive, assert_fits, Refusal};
use core::slice::ChunksExact;

/// No line of any text gives more bytes than this, whatever it is read by: 23,405 characters. Logs of so many are never too
/// short.
pub const CAPTURE_SPACE: usize = 2 * 23_405;

/// What a capture is read by: all that is asked but the logs.
///
/// The text is a value change dump as [`Duart::dump`](crate::Duart::dump) writes it, with 1 to 16 wires of any names, and
/// what most tools write is not: it has to be put into that form first. Byte for byte these lines, each ended by LF, one
/// `$var` line for each wire, with "names of 1 to 32 characters and one-character codes, ! to ~, each once":
///
/// ```text
/// $timescale 1 ns $end
/// $scope module duart $end
/// $var wire 1 ! RxDA $end
/// $var wire 1 " RxDB $end
/// $upscope $end
/// $enddefinitions $end
/// #0
/// 1!
/// 1"
/// #104166
/// 0!
/// ```
///
/// Then come times in nanoseconds, each later than the one before, "up to 4,000,000,000 ns, no leading zeros, each with any
/// value lines of those codes, the last of a code counting": 0 or 1 before the code, and nothing else on the line.
#[derive(Clone, Copy, Debug, PartialEq, Eq)]
pub struct Capture<'a> {
    /// MR1 of both channels, [`bits::mr1`](crate::bits::mr1). Bits 6 and 5 are allowed and not used.
    pub mr1: u8,
    /// ACR bit 7, which chooses the set of rates.
    pub acr7: bool,
    /// The receivers' code, CSR bits 7-4: 0 to 12.
    pub code: u8,
    pub text: &'a [u8],
    /// The name of the wire that is RxDA: whole, and as the text has it.
    pub name_a: &'a [u8],
    /// The name of the wire that is RxDB. It may be the same one.
    pub name_b: &'a [u8],
}

/// "the caller names a channel"
#[derive(Clone, Copy, Debug, PartialEq, Eq, Hash)]
pub enum Channel {
    A,
    B,
}

/// What a capture answers.
#[repr(C)]
#[derive(Clone, Copy, Debug, PartialEq, Eq)]
pub struct CaptureAnswer {
    /// 0, 5 (MR1 or the code), 10 (the text is outside the subset, or a named wire is missing), 11 (a time is not later than
    /// the one before) or 8 (a log is too short)
    pub number: u8,
    /// the bytes of the named channel's log that were filled, two a character; 0 if the call is refused
    pub length: usize,
}

/// Reads a capture: "Turn each line, up to the last time, into characters by document 01's receiver, just enabled, phase 0",
/// the lines being "high before their first value". Both logs are filled from their front, "two bytes a character (data,
/// marks as SR 7-5)", and what is past that stays; answered is the filled part of the named channel's, for [`characters`].
///
/// A receiver just enabled must sample a high before a low counts, so a line that is low at the first pulse gives nothing
/// until it was high. The text ends with its last time: a character is read where its stop sample comes no later than that,
/// so a capture ends with a time, with or without values, after the last stop bit.
///
/// A refused call is an error and both logs stay; in this order, [`Refusal::NotModelled`] for MR1 and for a code above 12,
/// [`Refusal::OutsideSubset`] for the text and for a named wire that it has not, [`Refusal::TimeNotLater`],
/// [`Refusal::SpaceShort`] where either log is shorter than its channel's characters, whichever is named.
///
/// # Panics
///
/// As [`Duart::fresh`](crate::Duart::fresh).
///
/// ```
/// use duart::bits::mr1;
/// use duart::{capture, characters, Capture, Channel, Refusal, CAPTURE_SPACE};
///
/// # fn main() -> Result<(), Refusal> {
/// let text = b"$timescale 1 ns $end\n$scope module duart $end\n$var wire 1 ! RxDA $end\n$var wire 1 \" RxDB $end\n\
///     $upscope $end\n$enddefinitions $end\n#0\n1!\n1\"\n#104166\n0!\n#208333\n1!\n#1200000\n";
/// let eight_bits = (mr1::NO_PARITY | mr1::DATA_BITS_8).byte();
/// let asked = Capture { mr1: eight_bits, acr7: false, code: 11, text, name_a: b"RxDA", name_b: b"RxDB" };
/// let (mut log_a, mut log_b) = ([0; CAPTURE_SPACE], [0; CAPTURE_SPACE]);
/// let part = capture(&asked, &mut log_a, &mut log_b, Channel::A)?;
/// assert_eq!(part, [255, 0]); // a start bit alone, at 9,600 bits a second
/// assert!(characters(part).all(|received| received.marks == 0));
/// let missing = Capture { name_b: b"RxD", ..asked };
/// assert_eq!(capture(&missing, &mut log_a, &mut log_b, Channel::A), Err(Refusal::OutsideSubset));
/// # Ok(())
/// # }
/// ```
pub fn capture<'log>(
    asked: &Capture,
    log_a: &'log mut [u8],
    log_b: &'log mut [u8],
    channel: Channel,
) -> Result<&'log [u8], Refusal> {
    let answer = capture_raw(asked, log_a, log_b, channel);
    match (Refusal::of_number(answer.number), channel) {
        (None, Channel::A) => Ok(&log_a[..answer.length]),
        (None, Channel::B) => Ok(&log_b[..answer.length]),
        (Some(refusal), _) => Err(refusal),
    }
}

/// The same, answered by the record.
///
/// # Panics
///
/// As [`Duart::fresh`](crate::Duart::fresh).
#[must_use = "its number says whether the call was refused, its length how much was filled"]
pub fn capture_raw(asked: &Capture, log_a: &mut [u8], log_b: &mut [u8], channel: Channel) -> CaptureAnswer {
    assert_fits();
    archive::capture(asked, log_a, log_b, channel == Channel::B)
}

/// A character of a log.
#[derive(Clone, Copy, Debug, PartialEq, Eq, Hash)]
pub struct Received {
    pub data: u8,
    /// The character's own marks where SR has them: [`sr::BREAK`](crate::bits::sr::BREAK), which then is alone,
    /// [`sr::FRAMING`](crate::bits::sr::FRAMING) and [`sr::PARITY`](crate::bits::sr::PARITY).
    pub marks: u8,
}

/// The characters of a log's filled part, in order. An odd byte at its end is none.
///
/// ```
/// use duart::bits::sr;
///
/// let log = [85, 0, 0, sr::BREAK.byte()];
/// let broken = duart::characters(&log).filter(|received| sr::BREAK.are_in(received.marks));
/// assert_eq!(broken.count(), 1);
/// ```
#[must_use]
pub fn characters(part: &[u8]) -> Characters<'_> {
    Characters { pairs: part.chunks_exact(2) }
}

/// What [`characters`] gives.
#[derive(Clone, Debug)]
pub struct Characters<'a> {
    pairs: ChunksExact<'a, u8>,
}

impl Iterator for Characters<'_> {
    type Item = Received;

    fn next(&mut self) -> Option<Received> {
        let pair = self.pairs.next()?;
        Some(Received { data: pair[0], marks: pair[1] })
    }

    fn size_hint(&self) -> (usize, Option<usize>) {
        self.pairs.size_hint()
    }
}

impl ExactSizeIterator for Characters<'_> {}
