//! How a capture is counted: by what its lines do, which is told by what another capture gives that differs in one thing, and
//! by its logs and its answer.

use crate::capture_lines::{Lines, LAST_TIME};
use crate::capture_sights::{CaptureCoverage, CaptureSight};
use crate::capture_texts::Drawn;
use duart::{CaptureAnswer, Channel};
use model::character::Character;
use model::dump::time_of;

type Both = [Vec<Character>; 2];

/// Whether the other capture gives other characters.
fn tells(drawn: &Drawn, both: &Both, other: &Lines) -> bool {
    drawn.asked_with(other.text()).characters().map_or(false, |others| others != *both)
}

impl CaptureCoverage {
    /// An accepted capture, once for its text.
    pub fn see_lines(&mut self, drawn: &Drawn, both: &Both) {
        let (lines, named) = (&drawn.lines, drawn.named);
        let [a, b] = [0, 1].map(|side| &lines.wires[named[side]]);
        let any = !both[0].is_empty() || !both[1].is_empty();
        self.note_if(lines.times.is_empty(), CaptureSight::NoTime);
        self.note_if(!any, CaptureSight::NoCharacter);
        self.note_if(any && lines.wires.len() == 1, CaptureSight::OneWire);
        self.note_if(any && lines.wires.len() == 16, CaptureSight::SixteenWires);
        self.note_if(any && named[0] == named[1], CaptureSight::OneWireForBoth);
        self.note_if(both[0] != both[1] && named[0] > named[1], CaptureSight::WiresExchanged);
        self.note_if(any && (a.1.len() == 1 || b.1.len() == 1), CaptureSight::ShortestName);
        self.note_if(any && (a.1.len() == 32 || b.1.len() == 32), CaptureSight::LongestName);
        self.note_if(any && (a.1 == b"$end" || b.1 == b"$end"), CaptureSight::NameEnd);
        let has_name = |name: &[u8]| any && lines.wires.iter().any(|wire| wire.1 == name);
        self.note_if(has_name(b"$upscope"), CaptureSight::NameUpscope);
        self.note_if(has_name(b"$enddefinitions"), CaptureSight::NameEndDefinitions);
        self.note_if(both[0].len() > 4 || both[1].len() > 4, CaptureSight::MoreThanThree);
        self.note_if(any && lines.last_time() == Some(LAST_TIME), CaptureSight::LastTimeOfAll);
        self.see_characters(drawn, both);
        self.see_others(drawn, both);
    }

    fn see_characters(&mut self, drawn: &Drawn, both: &Both) {
        let setting = drawn.setting;
        for (channel, characters) in both.iter().enumerate() {
            if !characters.is_empty() {
                self.see_code_of_wire(drawn.lines.wires[drawn.named[channel]].0);
            }
            let count = characters.len() as u64;
            self.rates[usize::from(setting.acr7)][usize::from(setting.code)] += count;
            self.formats[usize::from(setting.width() - 5)][usize::from(setting.mr1 >> 2 & 7)] += count;
            characters.iter().for_each(|character| self.see_marks(channel, character.marks));
        }
    }

    fn see_others(&mut self, drawn: &Drawn, both: &Both) {
        let lines = &drawn.lines;
        let sooner = lines.ended_sooner().map_or(false, |sooner| tells(drawn, both, &sooner));
        let bare = lines.times.last().map_or(false, |(_, values)| values.is_empty());
        let mut without = lines.clone();
        without.times.pop();
        self.note_if(tells(drawn, both, &lines.a_little_later()), CaptureSight::VeryTime);
        self.note_if(sooner, CaptureSight::LastTimeCounts);
        self.note_if(tells(drawn, both, &lines.without_the_last_values()), CaptureSight::LastValuesCount);
        self.note_if(bare && tells(drawn, both, &without), CaptureSight::BareLastTime);
        self.note_if(tells(drawn, both, &lines.first_values()), CaptureSight::LastOfACode);
        self.note_if(tells(drawn, both, &lines.from_time_0()), CaptureSight::LateFirstTime);
        self.note_if(tells(drawn, both, &lines.low_at_first(drawn.named)), CaptureSight::HighBefore);
        self.note_if(low_for_a_frame(drawn), CaptureSight::LowFromTheStart);
    }

    /// Each call: the logs, the answer, and how many bytes each channel's characters are, where the text is accepted but for
    /// what is wrong in it.
    pub fn see_call(&mut self, needed: [usize; 2], sizes: [usize; 2], channel: Channel, answer: CaptureAnswer) {
        self.captures += 1;
        let short = [0, 1].map(|side| sizes[side] < needed[side]);
        let odd = [0, 1].map(|side| sizes[side] == needed[side] + 1);
        let by_one = [0, 1].map(|side| sizes[side] + 1 == needed[side]);
        let is_short = short[0] || short[1];
        match answer.number {
            0 => {
                let differ = needed[0] != needed[1];
                self.note_if(channel == Channel::A && differ, CaptureSight::LengthsDifferA);
                self.note_if(channel == Channel::B && differ, CaptureSight::LengthsDifferB);
                self.note_if(sizes == needed && needed != [0, 0], CaptureSight::LogsExact);
                self.note_if(sizes[0] > needed[0] + 1 && sizes[1] > needed[1] + 1, CaptureSight::LogsLonger);
                self.note_if(odd[0] || odd[1], CaptureSight::LogOdd);
                self.note_if(sizes == [0, 0], CaptureSight::LogsEmpty);
            }
            8 => {
                self.note_if(by_one[0] && !short[1], CaptureSight::ShortByOneA);
                self.note_if(by_one[1] && !short[0], CaptureSight::ShortByOneB);
                self.note_if(short == [true, false] && channel == Channel::B, CaptureSight::OtherShortA);
                self.note_if(short == [false, true] && channel == Channel::A, CaptureSight::OtherShortB);
                self.note_if(sizes == [0, 0], CaptureSight::ShortEmpty);
            }
            5 => self.note_if(is_short, CaptureSight::Before8By5),
            10 => self.note_if(is_short, CaptureSight::Before8By10),
            _ => self.note_if(is_short, CaptureSight::Before8By11),
        }
    }
}

/// Whether a named line is low from the first pulse on, up to what would be its stop sample.
fn low_for_a_frame(drawn: &Drawn) -> bool {
    let (setting, times) = (drawn.setting, &drawn.lines.times);
    let (first, stop) = (time_of(setting.period()), time_of(setting.period() * (1 + setting.pulses_to_stop())));
    let values = |wire: usize| times.iter().flat_map(move |(time, values)| of_wire(*time, values, wire));
    let is_low = |wire: usize| {
        let before = values(wire).filter(|(time, _)| *time <= first).last();
        let high_later = values(wire).any(|(time, high)| high && time > first && time <= stop);
        before.map_or(false, |(_, high)| !high) && !high_later
    };
    drawn.lines.last_time() >= Some(stop) && drawn.named.iter().any(|wire| is_low(*wire))
}

fn of_wire(time: u64, values: &[(usize, bool)], wire: usize) -> impl Iterator<Item = (u64, bool)> + '_ {
    values.iter().filter(move |(other, _)| *other == wire).map(move |(_, high)| (time, *high))
}
