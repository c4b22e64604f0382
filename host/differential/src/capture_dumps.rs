//! Texts that are not drawn as captures: "Order 6's dumps read back as their waves", whole, cut and altered; pieces of the
//! grammar put together; random bytes.

use crate::capture_draws::{bytes, Reader};
use crate::capture_sights::{CaptureCoverage, CaptureSight};
use crate::capture_waves::Setting;
use crate::captures::{Asked, Reading};
use crate::generator::Generator;
use duart::{dump_space, Duart, Event, EventRecord};

const WIRES: [&str; 11] = ["TxDA", "TxDB", "IRQ", "OP0", "OP1", "OP2", "OP3", "OP4", "OP5", "OP6", "OP7"];

/// The dumps of these scripts.
pub fn run(scripts: &[(u64, Vec<EventRecord>)], seed: u64, coverage: &mut CaptureCoverage) -> Reading<()> {
    let mut reader = Reader { draws: Generator::with_seed(seed.rotate_left(29)), coverage };
    for (_, events) in scripts {
        let dump = dumped(&accepted(events));
        reader.of_dump(dump)?;
    }
    Ok(())
}

/// So many dumps of a chip that sends at a rate that is known, so that what it sent is read.
pub fn run_sending(dumps: u64, seed: u64, coverage: &mut CaptureCoverage) -> Reading<()> {
    let mut reader = Reader { draws: Generator::with_seed(seed.rotate_left(31)), coverage };
    for _ in 0..dumps {
        let setting = Setting { code: reader.draws.pick(&[10, 11, 12]), ..Setting::drawn(&mut reader.draws) };
        let dump = sending(setting, &mut reader.draws);
        reader.read_dump(asked(setting, dump, ["TxDA", "TxDB"]))?;
    }
    Ok(())
}

/// So many texts of pieces, and a million random bytes.
pub fn run_pieces(texts: u64, seed: u64, coverage: &mut CaptureCoverage) -> Reading<()> {
    let mut reader = Reader { draws: Generator::with_seed(seed.rotate_left(37)), coverage };
    for _ in 0..texts {
        let text = pieces(&mut reader.draws);
        reader.read_any(text, CaptureSight::NearGrammar)?;
    }
    let bytes = (0..1_000_000).map(|_| reader.draws.byte()).collect();
    reader.read_any(bytes, CaptureSight::RandomBytes)
}

/// The events of a script that the chip does not refuse: a dump would stop before the first that it does.
fn accepted(events: &[EventRecord]) -> Vec<EventRecord> {
    let mut chip = Duart::fresh();
    let mut taken = events.to_vec();
    taken.retain(|event| chip.step_record(*event).number == 0);
    taken
}

/// The text of a list that is taken from a fresh chip.
fn dumped(events: &[EventRecord]) -> Vec<u8> {
    let mut space = vec![0; dump_space(events.len())];
    let length = Duart::fresh().dump(events, &mut space).unwrap_or(0);
    space.truncate(length);
    space
}

fn asked(setting: Setting, text: Vec<u8>, names: [&str; 2]) -> Asked {
    let Setting { mr1, acr7, code } = setting;
    Asked { mr1, acr7, code, text, names: names.map(|name| name.as_bytes().to_vec()) }
}

/// Both channels send some bytes by this setting, with one stop bit, an output bit moving here and there.
fn sending(setting: Setting, draws: &mut Generator) -> Vec<u8> {
    let Setting { mr1, acr7, code } = setting;
    let writes = [0, 8].map(|base| [(base, mr1), (base, 0x07), (base + 1, code * 17), (base + 2, 0x04)]);
    let mut events = vec![Event::Write(4, if acr7 { 0x80 } else { 0 })];
    events.extend(writes.concat().into_iter().map(|(register, byte)| Event::Write(register, byte)));
    let period = setting.period() as usize;
    events.extend(vec![Event::Tick; period * draws.between(0, 20) as usize]);
    for _ in 0..draws.between(1, 6) {
        events.extend([3, 11].map(|register| Event::Write(register, draws.byte())));
        events.extend(vec![Event::Tick; period * draws.between(150, 220) as usize]);
        events.push(Event::Write(draws.pick(&[14, 15]), draws.byte()));
    }
    dumped(&events.into_iter().map(EventRecord::from).collect::<Vec<_>>())
}

/// Lines of a capture, whole or not, one behind the other; most begin with a whole header.
fn pieces(draws: &mut Generator) -> Vec<u8> {
    const HEADER: &str = "$timescale 1 ns $end\n$scope module duart $end\n$var wire 1 ! A $end\n$upscope $end\n\
        $enddefinitions $end\n";
    const LIKELY: [&str; 6] = ["#0\n", "#5\n", "#271\n", "#4000000000\n", "0!\n", "1!\n"];
    const PIECES: [&str; 20] = [
        "$timescale 1 ns $end\n", "$scope module duart $end\n", "$var wire 1 ! A $end\n", "$var wire 1 \" B $end\n",
        "$upscope $end\n", "$enddefinitions $end\n", "#", "0", "1", "!", "\"", "\n", "0\"\n", "#1", "00\n", "x!\n", " ",
        "$end", "#100000\n", "#1000000\n",
    ];
    let mut text = if draws.one_in(8) { String::new() } else { HEADER.to_string() };
    for _ in 0..draws.below(14) {
        let some = if draws.one_in(4) { &PIECES[..] } else { &LIKELY[..] };
        text.push_str(draws.pick(some));
    }
    text.into_bytes()
}

fn alter_a_byte(draws: &mut Generator, text: &mut [u8]) {
    let place = draws.below(text.len() as u64) as usize;
    text[place] = draws.byte();
}

/// A digit behind the header, of a time or of a value, becomes another.
fn alter_a_digit(draws: &mut Generator, text: &mut [u8]) {
    let digits: Vec<usize> = (336..text.len()).filter(|place| text[*place].is_ascii_digit()).collect();
    text[draws.pick(&digits)] = b'0' + draws.small(10);
}

impl Reader<'_> {
    /// Whole, cut anywhere, and with some bytes altered.
    fn of_dump(&mut self, dump: Vec<u8>) -> Reading<()> {
        let setting = Setting::drawn(&mut self.draws);
        let names = [self.draws.pick(&WIRES), self.draws.pick(&WIRES)];
        let cut = self.draws.below(dump.len() as u64) as usize;
        let whole = asked(setting, dump, names);
        self.read_dump(whole.clone())?;
        let shorter = Asked { text: whole.text[..cut].to_vec(), ..whole.clone() };
        self.read_cut(shorter)?;
        self.read_altered(whole.clone(), alter_a_byte)?;
        (0..3).try_for_each(|_| self.read_altered(whole.clone(), alter_a_digit))
    }

    fn read_dump(&mut self, asked: Asked) -> Reading<()> {
        let both = asked.characters().map_err(|number| {
            let told = format!("refused by {number}");
            asked.failure("a dump is outside the subset", told)
        })?;
        self.coverage.note_if(true, CaptureSight::DumpRead);
        self.coverage.note_if(!both[0].is_empty() || !both[1].is_empty(), CaptureSight::DumpWithCharacters);
        self.accepted(&asked, bytes(&both))
    }

    fn read_cut(&mut self, asked: Asked) -> Reading<()> {
        let told = asked.characters();
        self.coverage.note_if(told == Err(10), CaptureSight::DumpCut);
        self.accepted(&asked, told.map_or([2, 2], |both| bytes(&both)))
    }

    fn read_altered(&mut self, mut asked: Asked, alter: fn(&mut Generator, &mut [u8])) -> Reading<()> {
        for _ in 0..self.draws.between(1, 3) {
            alter(&mut self.draws, &mut asked.text);
        }
        let told = asked.characters();
        self.coverage.note_if(told.is_ok(), CaptureSight::DumpAlteredRead);
        self.coverage.note_if(told == Err(10), CaptureSight::DumpAltered10);
        self.coverage.note_if(told == Err(11), CaptureSight::DumpAltered11);
        self.accepted(&asked, told.map_or([2, 2], |both| bytes(&both)))
    }

    fn read_any(&mut self, text: Vec<u8>, sight: CaptureSight) -> Reading<()> {
        let names = [["A", "A"], ["A", "B"], ["B", "A"]];
        let setting = Setting::drawn(&mut self.draws);
        let asked = asked(setting, text, self.draws.pick(&names));
        self.coverage.note_if(true, sight);
        let needed = asked.characters().map_or([2, 2], |both| bytes(&both));
        self.accepted(&asked, needed)
    }
}
