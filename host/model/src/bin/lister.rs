//! What the frame lister prints, by the model: standard input sent on A as in case 4, "one line of ten mid-bit levels per
//! byte, no header".

use model::{Chip, Event};
use std::io::{self, Read, Write};

/// "85, MR1 19, MR2 7: 0101010101, 160 pulses, 3,840 ticks at code 11."
const PROGRAM: [(u8, u8); 4] = [(0, 19), (0, 7), (1, 0xbb), (2, 4)];
const TICKS_A_FRAME: usize = 3840;
/// Of each bit's 384 ticks: 24 to the pulse that starts the first bit, and half a bit.
const MIDDLE: usize = 24 + 192;

fn line(chip: &mut Chip, byte: u8) -> String {
    chip.step(Event::Write(3, byte));
    let levels: Vec<bool> = (0..TICKS_A_FRAME).map(|_| chip.step(Event::Tick).txda).collect();
    let digit = |high: bool| if high { '1' } else { '0' };
    levels.chunks(384).map(|bit| digit(bit[MIDDLE - 1])).chain(['\n']).collect()
}

fn main() -> io::Result<()> {
    let mut bytes = Vec::new();
    io::stdin().read_to_end(&mut bytes)?;
    let mut chip = Chip::fresh();
    for (register, byte) in PROGRAM {
        chip.step(Event::Write(register, byte));
    }
    let lines: String = bytes.iter().map(|&byte| line(&mut chip, byte)).collect();
    io::stdout().write_all(lines.as_bytes())
}
