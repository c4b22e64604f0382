//! The same levels given to the chip itself: "document 01's receiver, just enabled, phase 0", fed tick by tick through the
//! archive's own step, with each character read as it comes. What a capture reads must be that, and no model has a say in it.

use crate::capture_lines::Lines;
use crate::capture_texts::Drawn;
use crate::capture_waves::Setting;
use duart::{Duart, Event};
use model::character::Character;
use model::dump::time_of;

/// A capture whose last time is later than this tick's is not fed: it would take too long.
const MOST_TICKS: u64 = 40_000;

/// RxDA and RxDB.
const LINES: [u8; 2] = [0x40, 0x80];

/// Both channels' characters, or none where the capture is too long.
pub fn received(drawn: &Drawn) -> Option<[Vec<Character>; 2]> {
    let last = drawn.lines.last_time().filter(|last| *last < time_of(MOST_TICKS))?;
    let mut chip = just_enabled(drawn);
    let mut levels = Levels { lines: &drawn.lines, named: drawn.named, next: 0, pins: 0xff };
    let mut both = [Vec::new(), Vec::new()];
    for time in (1..).map(time_of).take_while(|time| *time <= last) {
        step(&mut chip, Event::Pins(levels.at(time)));
        step(&mut chip, Event::Tick);
        both[0].extend(taken(&mut chip, 0));
        both[1].extend(taken(&mut chip, 8));
    }
    Some(both)
}

fn step(chip: &mut Duart, event: Event) -> u8 {
    chip.step_raw(event).data
}

/// "A CSR write restarts that channel's phases": ACR first, then MR1, CSR and the receiver's enable. MR1 bit 5 would have SR
/// show sums, so it is not set.
fn just_enabled(drawn: &Drawn) -> Duart {
    let Setting { mr1, acr7, code } = drawn.setting;
    let mut chip = Duart::fresh();
    step(&mut chip, Event::Write(4, if acr7 { 0x80 } else { 0 }));
    let writes = [0, 8].map(|base| [(base, mr1 & !0x20), (base + 1, code << 4), (base + 2, 0x01)]);
    for (register, byte) in writes.concat() {
        step(&mut chip, Event::Write(register, byte));
    }
    chip
}

/// The character that has come, with its marks, SR 7-5.
fn taken(chip: &mut Duart, base: u8) -> Option<Character> {
    let status = step(chip, Event::Read(base + 1));
    (status & 1 == 1).then(|| Character { marks: status & 0xe0, data: step(chip, Event::Read(base + 3)) })
}

/// The pins as time goes on.
struct Levels<'a> {
    lines: &'a Lines,
    named: [usize; 2],
    next: usize,
    pins: u8,
}

impl Levels<'_> {
    fn at(&mut self, time: u64) -> u8 {
        let behind = self.lines.times[self.next..].iter().take_while(|(other, _)| *other <= time);
        let taken: Vec<&(u64, Vec<(usize, bool)>)> = behind.collect();
        self.next += taken.len();
        for (wire, high) in taken.into_iter().flat_map(|(_, values)| values) {
            let lines = self.named.iter().zip(LINES).filter(|(named, _)| *named == wire);
            let mask = lines.fold(0, |mask, (_, line)| mask | line);
            self.pins = if *high { self.pins | mask } else { self.pins & !mask };
        }
        self.pins
    }
}
