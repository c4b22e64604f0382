//! What is counted of order 6's dumps: as for the scripts, a run in which one of these is zero fails. Beside each stands the
//! wrong program that it would show; a family counts each wire, since one wire in another's place shows in its own moves.

use crate::dump_walk::WIRES;

/// A sight of a dump.
#[derive(Clone, Copy, Debug, PartialEq, Eq)]
pub enum DumpSight {
    NoEvent,
    NoTick,
    OnlyTimeZero,
    AllHighAtZero,
    EarlyChange,
    EarlyChangeBack,
    EarlyChangeAlone,
    StillTicksBetween,
    StillTicksAtTheEnd,
    ChangeInTheLastEvent,
    OneOfSeveral,
    TwoAtOneTime,
    TickAndLaterEvent,
    MovedAgain,
    TakenBackAlone,
    TakenBackBeside,
    TickTakenBack,
    NextTicks,
    WholeTime,
    FractionBelowHalf,
    FractionAboveHalf,
    ResetThenChange,
    EndsFirst,
    EndsMiddle,
    EndsLast,
    EndsWithAChange,
    WouldGoOn,
    EndsBy2,
    EndsBy3,
    EndsBy4,
    EndsBy5,
    EndsBy6,
    EndsByUnknownKind,
    RestOfOne,
    RestOfTwo,
    RestBehindAll,
    SpaceExact,
    SpacePast,
    RefusedBy8ByOne,
    RefusedBy8Within,
    RefusedBy8Empty,
    RefusedBy8WouldGoOn,
    RefusedBy1,
    RefusedBy1Before8,
    RefusedBy1Before9,
    RefusedBy9,
    RefusedBy9Before8,
    RefusedBy9WouldEnd,
    Most,
    MostWithARest,
}

/// Each sight by its name, in the order of the enum.
pub const DUMP_SIGHTS: [(DumpSight, &str); 50] = [
    (DumpSight::NoEvent, "dumps of no event"),
    (DumpSight::NoTick, "dumps of events without a tick"),
    (DumpSight::OnlyTimeZero, "dumps with ticks and time 0 alone"),
    // values missing at time 0: those that are as a fresh chip has them
    (DumpSight::AllHighAtZero, "dumps with all high at time 0"),
    // events before the first tick at another time than 0, or left out
    (DumpSight::EarlyChange, "dumps, changes before the first tick"),
    (DumpSight::EarlyChangeBack, "dumps, taken back before the first tick"),
    (DumpSight::EarlyChangeAlone, "dumps, changes before the first tick alone"),
    // a time without a change
    (DumpSight::StillTicksBetween, "times with still ticks before them"),
    (DumpSight::StillTicksAtTheEnd, "dumps with still ticks at the end"),
    // the last time is forgotten
    (DumpSight::ChangeInTheLastEvent, "dumps, a change by the last event"),
    // a value that did not change
    (DumpSight::OneOfSeveral, "times at which some wires stay"),
    // two changes at one time: a `#` for each, or the first alone
    (DumpSight::TwoAtOneTime, "times with changes by two events"),
    (DumpSight::TickAndLaterEvent, "times with a tick's change and another's"),
    (DumpSight::MovedAgain, "times at which a wire moves thrice"),
    // a change that is taken back
    (DumpSight::TakenBackAlone, "times at which all is taken back"),
    (DumpSight::TakenBackBeside, "times, one taken back and one not"),
    (DumpSight::TickTakenBack, "times, a tick's change taken back"),
    (DumpSight::NextTicks, "times at two ticks in a row"),
    // times rounded otherwise
    (DumpSight::WholeTime, "times that are whole"),
    (DumpSight::FractionBelowHalf, "times with a fraction below a half"),
    (DumpSight::FractionAboveHalf, "times with a fraction above a half"),
    // a chip reset that restarts the ticks
    (DumpSight::ResetThenChange, "dumps, a change after a tick and a chip reset"),
    // a refused event's lines, what follows it, and a length of 0 for it
    (DumpSight::EndsFirst, "dumps ended by the first of several"),
    (DumpSight::EndsMiddle, "dumps ended in the middle"),
    (DumpSight::EndsLast, "dumps ended by the last of several"),
    (DumpSight::EndsWithAChange, "dumps ended at a time with a change"),
    (DumpSight::WouldGoOn, "dumps ended, the text would go on"),
    (DumpSight::EndsBy2, "dumps ended by 2"),
    (DumpSight::EndsBy3, "dumps ended by 3"),
    (DumpSight::EndsBy4, "dumps ended by 4"),
    (DumpSight::EndsBy5, "dumps ended by 5"),
    (DumpSight::EndsBy6, "dumps ended by an acknowledge, 6"),
    (DumpSight::EndsByUnknownKind, "dumps ended by a kind above 5"),
    (DumpSight::RestOfOne, "dumps with a rest of one byte"),
    (DumpSight::RestOfTwo, "dumps with a rest of two bytes"),
    (DumpSight::RestBehindAll, "dumps with a rest behind all events taken"),
    (DumpSight::SpaceExact, "dumps into space that is just enough"),
    (DumpSight::SpacePast, "dumps into more space"),
    // something written into short space, or its length told
    (DumpSight::RefusedBy8ByOne, "dumps refused by 8, a byte short"),
    (DumpSight::RefusedBy8Within, "dumps refused by 8, within the first 372"),
    (DumpSight::RefusedBy8Empty, "dumps refused by 8, no space"),
    (DumpSight::RefusedBy8WouldGoOn, "dumps refused by 8, ended by an event"),
    (DumpSight::RefusedBy1, "dumps refused by 1"),
    (DumpSight::RefusedBy1Before8, "dumps refused by 1, and not by 8"),
    (DumpSight::RefusedBy1Before9, "dumps refused by 1, and not by 9"),
    (DumpSight::RefusedBy9, "dumps refused by 9"),
    (DumpSight::RefusedBy9Before8, "dumps refused by 9, and not by 8"),
    (DumpSight::RefusedBy9WouldEnd, "dumps refused by 9, a refused event first"),
    (DumpSight::Most, "dumps of 1,000,000 events"),
    (DumpSight::MostWithARest, "dumps of 1,000,000 events and a rest"),
];

/// The counts, and six families: by wire, low and high at time 0, its falls, its rises, and times at which it alone changes;
/// by the digits of a time.
pub struct DumpCoverage {
    counts: [u64; DUMP_SIGHTS.len()],
    pub low_at_zero: [u64; WIRES],
    pub high_at_zero: [u64; WIRES],
    pub falls: [u64; WIRES],
    pub rises: [u64; WIRES],
    pub alone: [u64; WIRES],
    pub digits: [u64; 10],
    pub dumps: u64,
}

impl Default for DumpCoverage {
    fn default() -> DumpCoverage {
        DumpCoverage {
            counts: [0; DUMP_SIGHTS.len()],
            low_at_zero: [0; WIRES],
            high_at_zero: [0; WIRES],
            falls: [0; WIRES],
            rises: [0; WIRES],
            alone: [0; WIRES],
            digits: [0; 10],
            dumps: 0,
        }
    }
}

const NAMES: [&str; WIRES] = ["TxDA", "TxDB", "IRQ", "OP0", "OP1", "OP2", "OP3", "OP4", "OP5", "OP6", "OP7"];

fn family(name: &str, counts: &[u64; WIRES]) -> Vec<(String, u64)> {
    let named = NAMES.iter().zip(counts);
    named.map(|(wire, count)| (format!("{wire} {name}"), *count)).collect()
}

impl DumpCoverage {
    /// Each name and its count. The times of ticks have 3 digits, of tick 1, to 9.
    fn lines(&self) -> Vec<(String, u64)> {
        let sights = DUMP_SIGHTS.iter();
        let counted: Vec<(String, u64)> = sights.map(|(sight, name)| (name.to_string(), self.of(*sight))).collect();
        let digits = (3..10).map(|digits| (format!("times of {digits} digits"), self.digits[digits]));
        let families = [
            family("low at time 0", &self.low_at_zero),
            family("high at time 0", &self.high_at_zero),
            family("falls", &self.falls),
            family("rises", &self.rises),
            family("changes alone at a time", &self.alone),
            digits.collect(),
        ];
        [counted, families.concat()].concat()
    }

    pub fn missing(&self) -> Vec<String> {
        let none = self.lines().into_iter().filter(|(_, count)| *count == 0);
        none.map(|(name, _)| name).collect()
    }

    pub fn print(&self) {
        for (name, count) in self.lines() {
            println!("{count:>10} {name}");
        }
    }

    pub fn of(&self, sight: DumpSight) -> u64 {
        self.counts[sight as usize]
    }

    pub fn note_if(&mut self, so: bool, sight: DumpSight) {
        self.counts[sight as usize] += u64::from(so);
    }
}

#[cfg(test)]
mod tests {
    use super::DUMP_SIGHTS;

    #[test]
    fn the_names_stand_in_the_order_of_the_enum() {
        for (place, (sight, _)) in DUMP_SIGHTS.iter().enumerate() {
            assert_eq!(*sight as usize, place);
        }
    }
}
