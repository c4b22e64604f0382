//! All that is one byte away from a small capture: its text with each byte altered to each other, taken out, and each put in at
//! each place; the names given in the same way; each MR1, ACR bit 7 and code. What stands beside a digit, a code, a name's
//! characters, a space or an LF is among them. Its lines are taken out, and put in at each place; each piece of a line is taken
//! out; lines are as tools write them. Beside it, sixteen wires with the code or the name of one in the place of each other's.

use crate::capture_lines::Lines;
use crate::capture_sights::{CaptureCoverage, CaptureSight};
use crate::captures::{Asked, Reading};
use duart::Channel;

const LONGEST: &str = "nnnnnnnnnnnnnnnnnnnnnnnnnnnnnnnn";

/// Two wires that are named, one whose name is the longest, with values, and one with none, whose code and name are nobody's.
const LINES: [&str; 20] = [
    "$timescale 1 ns $end\n",
    "$scope module duart $end\n",
    "$var wire 1 # RxDA $end\n",
    "$var wire 1 x nnnnnnnnnnnnnnnnnnnnnnnnnnnnnnnn $end\n",
    "$var wire 1 1 RxDB $end\n",
    "$var wire 1 ~ ! $end\n",
    "$upscope $end\n",
    "$enddefinitions $end\n",
    "#0\n",
    "1#\n",
    "0x\n",
    "#3255\n",
    "0#\n",
    "01\n",
    "1x\n",
    "#20000\n",
    "11\n",
    "#172526\n",
    "1#\n",
    "#172600\n",
];

/// A name with what stands before or behind it.
const MORE: [&str; 5] =
    ["# RxDA", "RxDA $end", "RxDA $end\n", "$var wire 1 # RxDA $end\n", "RxDB $end\n$var wire 1 ~ !"];

/// What tools write in the place of a line: a unit, a kind, a width or an index that is not order 6's, and more on a line.
const TOOLS: [(usize, &str); 16] = [
    (0, "$timescale 1ns $end\n"),
    (0, "$timescale 1 us $end\n"),
    (0, "$timescale 100 ps $end\n"),
    (0, "$timescale\n1 ns\n$end\n"),
    (1, "$scope module top $end\n"),
    (1, "$scope module libsigrok $end\n"),
    (1, "$scope begin duart $end\n"),
    (5, "$var reg 1 ~ ! $end\n"),
    (5, "$var logic 1 ~ ! $end\n"),
    (5, "$var wire 8 ~ ! $end\n"),
    (5, "$var wire 1 ~ ! [0] $end\n"),
    (5, "$var wire 1 ~ ! [7:0] $end\n"),
    (7, "$enddefinitions $end $comment a tool's $end\n"),
    (9, "$dumpvars\n1#\n$end\n"),
    (10, "0 x\n"),
    (17, "#172526 1#\n"),
];

pub fn run(coverage: &mut CaptureCoverage) -> Reading<()> {
    let mut reader = Reader { coverage };
    away(LINES.concat().as_bytes()).try_for_each(|text| reader.read(Asked { text, ..small() }, BYTE_AWAY))?;
    reader.lines()?;
    reader.pieces()?;
    reader.tools()?;
    reader.words()?;
    reader.names()?;
    reader.settings()?;
    sixteen().into_iter().try_for_each(|wires| reader.twice(wires))
}

/// By 5 bits and no parity at code 12: a 0 on A, whose stop is sampled at 172,526 ns, and a 31 on B.
fn small() -> Asked {
    let names = ["RxDA", "RxDB"].map(|name| name.as_bytes().to_vec());
    Asked { mr1: 0x10, acr7: false, code: 12, text: LINES.concat().into_bytes(), names }
}

/// What is one byte away from this: a byte more, another, one less.
fn away(bytes: &[u8]) -> impl Iterator<Item = Vec<u8>> + '_ {
    (0..=bytes.len()).flat_map(move |place| {
        let (before, behind) = bytes.split_at(place);
        let rest = behind.get(1..);
        let more = (0..=255).map(move |byte| [before, &[byte], behind].concat());
        let other = rest.into_iter().flat_map(move |rest| (0..=255).map(move |byte| [before, &[byte], rest].concat()));
        more.chain(other).chain(rest.map(|rest| [before, rest].concat()))
    })
}

type Wires = Vec<(u8, Vec<u8>)>;

/// Sixteen wires with the longest names, in which the first character differs, and in which the last does.
fn sixteen() -> [Wires; 2] {
    let name = |place: usize, wire: u8| {
        let mut name = LONGEST.as_bytes().to_vec();
        name[place] = b'A' + wire;
        name
    };
    [0, 31].map(|place| (0..16).map(|wire| (b'#' + wire, name(place, wire))).collect())
}

/// The sights of what is read, refused by 5, by 10 and by 11.
type Sights = [Option<CaptureSight>; 4];
const BYTE_AWAY: Sights =
    [Some(CaptureSight::ByteAwayRead), None, Some(CaptureSight::ByteAway10), Some(CaptureSight::ByteAway11)];
const LINE_AWAY: Sights =
    [Some(CaptureSight::LineAwayRead), None, Some(CaptureSight::LineAway10), Some(CaptureSight::LineAway11)];
const PIECE_GONE: Sights =
    [Some(CaptureSight::PieceGoneRead), None, Some(CaptureSight::PieceGone10), Some(CaptureSight::PieceGone11)];
const TOOLS_LINE: Sights = [None, None, Some(CaptureSight::ToolsLine), None];
const WORD_FOR_NAME: Sights = [Some(CaptureSight::WordForName), None, Some(CaptureSight::WordTwice), None];
const NAME_AWAY: Sights = [Some(CaptureSight::NameAwayRead), None, Some(CaptureSight::NameAway10), None];
const SETTINGS: Sights = [Some(CaptureSight::SettingRead), Some(CaptureSight::Setting5), None, None];
const TWICE: Sights = [Some(CaptureSight::LikeNames), None, Some(CaptureSight::TwiceOfSixteen), None];

struct Reader<'a> {
    coverage: &'a mut CaptureCoverage,
}

impl Reader<'_> {
    fn read(&mut self, asked: Asked, sights: Sights) -> Reading<()> {
        let channel = if asked.text.len() % 2 == 0 { Channel::A } else { Channel::B };
        let answer = asked.read([6, 6], channel)?;
        self.coverage.captures += 1;
        for (sight, number) in sights.into_iter().zip([0, 5, 10, 11]) {
            sight.into_iter().for_each(|sight| self.coverage.note_if(answer.number == number, sight));
        }
        Ok(())
    }

    fn lines(&mut self) -> Reading<()> {
        for place in 0..LINES.len() {
            let mut without = LINES.to_vec();
            let line = without.remove(place);
            let again = (0..=LINES.len()).map(|other| [&LINES[..other], &[line], &LINES[other..]].concat());
            let moved = (0..LINES.len()).map(|other| [&without[..other], &[line], &without[other..]].concat());
            let all: Vec<Vec<&str>> = again.chain(moved).chain([without.clone()]).collect();
            all.into_iter().try_for_each(|lines| self.read(Asked { text: lines.concat().into_bytes(), ..small() }, LINE_AWAY))?;
        }
        Ok(())
    }

    /// Without each piece of a line, its LF being none.
    fn pieces(&mut self) -> Reading<()> {
        for (place, line) in LINES.iter().enumerate() {
            for (from, to) in (0..line.len()).flat_map(|from| (from + 1..line.len()).map(move |to| (from, to))) {
                let rest = [&line[..from], &line[to..]].concat();
                self.put(place, &rest, PIECE_GONE)?;
            }
        }
        Ok(())
    }

    fn tools(&mut self) -> Reading<()> {
        TOOLS.iter().try_for_each(|(place, line)| self.put(*place, line, TOOLS_LINE))
    }

    /// Each word of the text, and some of other dumps, for a name that is not asked for; those that are names stand twice then.
    fn words(&mut self) -> Reading<()> {
        let all = LINES.iter().flat_map(|line| line.split_whitespace()).chain(["$dumpvars", "$comment", "$date", "$version"]);
        all.map(|word| format!("$var wire 1 ~ {word} $end\n")).try_for_each(|line| self.put(5, &line, WORD_FOR_NAME))
    }

    /// With this in the place of a line.
    fn put(&mut self, place: usize, line: &str, sights: Sights) -> Reading<()> {
        let text = [&LINES[..place], &[line], &LINES[place + 1..]].concat().concat().into_bytes();
        self.read(Asked { text, ..small() }, sights)
    }

    /// Those of either side, and the longest; and what stands in the text with a name.
    fn names(&mut self) -> Reading<()> {
        for side in 0..2 {
            let away = ["RxDA", "RxDB", LONGEST, "!"].into_iter().flat_map(|name| away(name.as_bytes()));
            let with_more = MORE.iter().map(|name| name.as_bytes().to_vec());
            for name in away.chain(with_more) {
                let mut asked = small();
                asked.names[side] = name;
                self.read(asked, NAME_AWAY)?;
            }
        }
        Ok(())
    }

    fn settings(&mut self) -> Reading<()> {
        for (mr1, code) in (0..=255).flat_map(|mr1| (0..=255).map(move |code| (mr1, code))) {
            [false, true].into_iter().try_for_each(|acr7| self.read(Asked { mr1, acr7, code, ..small() }, SETTINGS))?;
        }
        Ok(())
    }

    /// As they are, where one is put for itself, and with one's code or name for each other's.
    fn twice(&mut self, wires: Wires) -> Reading<()> {
        for (one, other) in (0..16).flat_map(|one| (0..16).map(move |other| (one, other))) {
            let (mut code, mut name) = (wires.clone(), wires.clone());
            code[other].0 = wires[one].0;
            name[other].1 = wires[one].1.clone();
            let named = [&wires[one].1, &wires[(other + 1) % 16].1].map(Vec::clone);
            for wires in [code, name] {
                let text = Lines { wires, times: Vec::new() }.text();
                self.read(Asked { text, names: named.clone(), ..small() }, TWICE)?;
            }
        }
        Ok(())
    }
}

#[cfg(test)]
mod tests {
    use super::{away, small};
    use model::character::Character;

    #[test]
    fn the_capture_has_a_character_on_each_line() {
        let [a, b] = small().characters().unwrap_or_else(|number| panic!("refused by {number}"));
        let read = |line: Vec<Character>| line.iter().map(|it| (it.data, it.marks)).collect::<Vec<_>>();
        assert_eq!([read(a), read(b)], [[(0, 0)], [(31, 0)]]);
    }

    #[test]
    fn a_byte_more_another_and_one_less() {
        let all: Vec<Vec<u8>> = away(b"ab").collect();
        assert_eq!(all.len(), 3 * 256 + 2 * 256 + 2);
        assert!([&b"a"[..], b"b", b"xb", b"ax", b"xab", b"axb", b"abx"].iter().all(|one| all.contains(&one.to_vec())));
    }
}
