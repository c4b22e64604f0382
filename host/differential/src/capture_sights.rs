//! What is counted of order 7's captures: as for the scripts, a run in which one of these is zero fails. Beside each stands
//! the wrong program that it would show. Each edit of capture_edits.rs is counted too, where it is refused by its number.

use crate::capture_edits::EDITS;

/// A sight of a capture.
#[derive(Clone, Copy, Debug, PartialEq, Eq)]
pub enum CaptureSight {
    NoTime,
    NoCharacter,
    OneWire,
    SixteenWires,
    OneWireForBoth,
    WiresExchanged,
    ShortestName,
    LongestName,
    NameEnd,
    NameUpscope,
    NameEndDefinitions,
    VeryTime,
    LastTimeCounts,
    LastValuesCount,
    BareLastTime,
    LastOfACode,
    LateFirstTime,
    HighBefore,
    LowFromTheStart,
    MoreThanThree,
    LastTimeOfAll,
    LengthsDifferA,
    LengthsDifferB,
    LogsExact,
    LogsLonger,
    LogOdd,
    LogsEmpty,
    ShortByOneA,
    ShortByOneB,
    OtherShortA,
    OtherShortB,
    ShortEmpty,
    Before8By5,
    Before8By10,
    Before8By11,
    ByTheChip,
    DumpRead,
    DumpWithCharacters,
    DumpCut,
    DumpAlteredRead,
    DumpAltered10,
    DumpAltered11,
    NearGrammar,
    RandomBytes,
    MostCharacters,
    MostShortByOne,
    StopAtTheLastTime,
    ByteAwayRead,
    ByteAway10,
    ByteAway11,
    LineAwayRead,
    LineAway10,
    LineAway11,
    PieceGoneRead,
    PieceGone10,
    PieceGone11,
    ToolsLine,
    WordForName,
    WordTwice,
    NameAwayRead,
    NameAway10,
    SettingRead,
    Setting5,
    LikeNames,
    TwiceOfSixteen,
    LogsOver16Bits,
    ManyLines,
}

/// Each sight by its name, in the order of the enum.
pub const CAPTURE_SIGHTS: [(CaptureSight, &str); 67] = [
    // 10 for a text without a time
    (CaptureSight::NoTime, "captures with no time"),
    (CaptureSight::NoCharacter, "captures with no character"),
    (CaptureSight::OneWire, "captures of one wire"),
    (CaptureSight::SixteenWires, "captures of sixteen wires"),
    // the same wire named twice refused, or read for one channel
    (CaptureSight::OneWireForBoth, "captures, one wire for both"),
    // the wires in the order of the header
    (CaptureSight::WiresExchanged, "captures, B's wire before A's"),
    (CaptureSight::ShortestName, "captures by a name of one character"),
    (CaptureSight::LongestName, "captures by a name of 32"),
    (CaptureSight::NameEnd, "captures by the name $end"),
    // the header's end looked for in the text and not by its lines
    (CaptureSight::NameUpscope, "captures with the name $upscope"),
    (CaptureSight::NameEndDefinitions, "captures with the name $enddefinitions"),
    // a level that counts one tick late
    (CaptureSight::VeryTime, "captures, a value at a tick's very time tells"),
    // ticks before the last time only, or after it
    (CaptureSight::LastTimeCounts, "captures, a tick at the last time tells"),
    // the last time's values not counted
    (CaptureSight::LastValuesCount, "captures, a value of the last time tells"),
    (CaptureSight::BareLastTime, "captures, a last time without values tells"),
    // the first value of a code at a time
    (CaptureSight::LastOfACode, "captures, the last of a code tells"),
    // times moved to begin at 0
    (CaptureSight::LateFirstTime, "captures, a late first time tells"),
    // a line low before its first value
    (CaptureSight::HighBefore, "captures, high before the first value tells"),
    // a line low from the start read as a character
    (CaptureSight::LowFromTheStart, "captures, low from the start for a frame"),
    // the queue of three
    (CaptureSight::MoreThanThree, "captures with more than four characters"),
    (CaptureSight::LastTimeOfAll, "captures up to 4,000,000,000 ns"),
    // the other channel's part
    (CaptureSight::LengthsDifferA, "captures, A's part is not as long as B's"),
    (CaptureSight::LengthsDifferB, "captures, B's part is not as long as A's"),
    (CaptureSight::LogsExact, "captures into logs that are just enough"),
    (CaptureSight::LogsLonger, "captures into longer logs"),
    // an odd byte of a log used
    (CaptureSight::LogOdd, "captures into a log with an odd byte"),
    (CaptureSight::LogsEmpty, "captures of nothing into no log"),
    // a log one byte short that is written
    (CaptureSight::ShortByOneA, "captures refused by 8, A's log a byte short"),
    (CaptureSight::ShortByOneB, "captures refused by 8, B's log a byte short"),
    // 8 judged for the named channel only
    (CaptureSight::OtherShortA, "captures refused by 8, B named, A's log short"),
    (CaptureSight::OtherShortB, "captures refused by 8, A named, B's log short"),
    (CaptureSight::ShortEmpty, "captures refused by 8, no log"),
    // the refusals in another order
    (CaptureSight::Before8By5, "captures refused by 5, and not by 8"),
    (CaptureSight::Before8By10, "captures refused by 10, and not by 8"),
    (CaptureSight::Before8By11, "captures refused by 11, and not by 8"),
    // the same levels given to the chip itself, tick by tick
    (CaptureSight::ByTheChip, "captures with the chip's own characters"),
    (CaptureSight::DumpRead, "dumps read"),
    (CaptureSight::DumpWithCharacters, "dumps with characters in them"),
    (CaptureSight::DumpCut, "dumps cut and refused"),
    (CaptureSight::DumpAlteredRead, "dumps altered and read"),
    (CaptureSight::DumpAltered10, "dumps altered and refused by 10"),
    (CaptureSight::DumpAltered11, "dumps altered and refused by 11"),
    (CaptureSight::NearGrammar, "texts of pieces of a capture"),
    (CaptureSight::RandomBytes, "a million random bytes"),
    // a log for fewer, a count that is too small
    (CaptureSight::MostCharacters, "captures of 23,405 characters"),
    (CaptureSight::MostShortByOne, "captures of 23,405, refused by 8"),
    (CaptureSight::StopAtTheLastTime, "captures with a stop at 4,000,000,000 ns"),
    // a digit, a character or a code beside what it may be; a space more or less, a tab, a NUL
    (CaptureSight::ByteAwayRead, "captures a byte away, read"),
    (CaptureSight::ByteAway10, "captures a byte away, refused by 10"),
    (CaptureSight::ByteAway11, "captures a byte away, refused by 11"),
    // the header's lines in another order, or twice
    (CaptureSight::LineAwayRead, "captures a line away, read"),
    (CaptureSight::LineAway10, "captures a line away, refused by 10"),
    (CaptureSight::LineAway11, "captures a line away, refused by 11"),
    // a line compared up to where it ends
    (CaptureSight::PieceGoneRead, "captures less a piece of a line, read"),
    (CaptureSight::PieceGone10, "captures less a piece of a line, refused by 10"),
    (CaptureSight::PieceGone11, "captures less a piece of a line, refused by 11"),
    (CaptureSight::ToolsLine, "captures with a line as tools write it, refused by 10"),
    // a word that means something barred from names
    (CaptureSight::WordForName, "captures with a word of the text for a name, read"),
    (CaptureSight::WordTwice, "captures with another's name for a name, refused by 10"),
    // a name up to a NUL, in capitals
    (CaptureSight::NameAwayRead, "captures by a name a byte away, read"),
    (CaptureSight::NameAway10, "captures by a name a byte away, refused by 10"),
    (CaptureSight::SettingRead, "captures by any MR1 and code, read"),
    (CaptureSight::Setting5, "captures by any MR1 and code, refused by 5"),
    // names compared in part; a wire compared with some of the others only
    (CaptureSight::LikeNames, "captures of sixteen wires with like names"),
    (CaptureSight::TwiceOfSixteen, "captures of sixteen wires, one's code or name twice"),
    // a log's size, the times or the values counted by 16 bits
    (CaptureSight::LogsOver16Bits, "captures into logs of more than 65,535 bytes"),
    (CaptureSight::ManyLines, "captures of 70,000 times and values"),
];

/// The marks that a character may have, as SR 7-5.
const MARKS: [u8; 5] = [0, 32, 64, 96, 128];
/// The codes that look like something else, of a wire that is read.
const ODD_CODES: [u8; 6] = *b"#$01!~";

/// The counts, and families: the characters by their marks, of each channel; by the set and the code that they were read by; by
/// width and parity; captures by an odd code of the wire; and edits.
pub struct CaptureCoverage {
    counts: [u64; CAPTURE_SIGHTS.len()],
    pub marks: [[u64; MARKS.len()]; 2],
    pub rates: [[u64; 13]; 2],
    pub formats: [[u64; 6]; 4],
    pub odd_codes: [u64; ODD_CODES.len()],
    pub edits: [u64; EDITS.len()],
    pub captures: u64,
}

impl Default for CaptureCoverage {
    fn default() -> CaptureCoverage {
        CaptureCoverage {
            counts: [0; CAPTURE_SIGHTS.len()],
            marks: [[0; MARKS.len()]; 2],
            rates: [[0; 13]; 2],
            formats: [[0; 6]; 4],
            odd_codes: [0; ODD_CODES.len()],
            edits: [0; EDITS.len()],
            captures: 0,
        }
    }
}

/// The place of a value in a family.
pub fn place_in(family: &[u8], value: u8) -> Option<usize> {
    family.iter().position(|other| *other == value)
}

impl CaptureCoverage {
    pub fn see_marks(&mut self, channel: usize, marks: u8) {
        if let Some(place) = place_in(&MARKS, marks) {
            self.marks[channel][place] += 1;
        }
    }

    pub fn see_code_of_wire(&mut self, code: u8) {
        if let Some(place) = place_in(&ODD_CODES, code) {
            self.odd_codes[place] += 1;
        }
    }

    /// Each name and its count. Parity 10 is none, with bit 2 or without.
    fn lines(&self) -> Vec<(String, u64)> {
        let sights = CAPTURE_SIGHTS.iter().map(|(sight, name)| (name.to_string(), self.of(*sight)));
        let edits = EDITS.iter().zip(self.edits);
        let edits = edits.map(|((_, number, name), count)| (format!("refused by {number}: {name}"), count));
        let marks = self.marks.iter().zip(["A", "B"]).flat_map(|(counts, channel)| {
            let named = MARKS.iter().zip(counts);
            named.map(move |(marks, count)| (format!("characters of {channel} with marks {marks}"), *count))
        });
        let rates = self.rates.iter().zip(["set 1", "set 2"]).flat_map(|(counts, set)| {
            let named = counts.iter().enumerate();
            named.map(move |(code, count)| (format!("characters by code {code} of {set}"), *count))
        });
        let formats = self.formats.iter().zip(5..).flat_map(|(counts, width)| {
            let named = counts.iter().enumerate();
            named.map(move |(parity, count)| (format!("characters of {width} bits, MR1 bits 4-2 = {parity:03b}"), *count))
        });
        let codes = ODD_CODES.iter().zip(self.odd_codes);
        let codes = codes.map(|(code, count)| (format!("wires with code {}", char::from(*code)), count));
        sights.chain(edits).chain(marks).chain(rates).chain(formats).chain(codes).collect()
    }

    pub fn missing(&self) -> Vec<String> {
        let none = self.lines().into_iter().filter(|(_, count)| *count == 0);
        none.map(|(name, _)| name).collect()
    }

    pub fn print(&self) {
        for (name, count) in self.lines() {
            println!("{count:>10} {name}");
        }
    }

    pub fn of(&self, sight: CaptureSight) -> u64 {
        self.counts[sight as usize]
    }

    pub fn note_if(&mut self, so: bool, sight: CaptureSight) {
        self.counts[sight as usize] += u64::from(so);
    }
}

#[cfg(test)]
mod tests {
    use super::CAPTURE_SIGHTS;

    #[test]
    fn the_names_stand_in_the_order_of_the_enum() {
        for (place, (sight, _)) in CAPTURE_SIGHTS.iter().enumerate() {
            assert_eq!(*sight as usize, place);
        }
    }
}
