//! Frame requests: all MR1 and MR2, every byte, and some bytes in spaces about as long as the frame. The number, the length
//! and the whole space are those of the model's.

use crate::generator::Generator;

/// Longer than any space that is lent.
const SPACE: usize = 256;
/// What the space holds before: neither level, so that each byte written is seen.
const UNTOUCHED: u8 = 0xa5;

/// A request that was not answered as the model answers it.
pub struct Failure {
    mr1: u8,
    mr2: u8,
    byte: u8,
    space: usize,
    chip: (u8, u8),
    model: (u8, u8),
}

impl Failure {
    pub fn print(&self) {
        let Failure { mr1, mr2, byte, .. } = self;
        println!("the chip and the model differ in a frame request: MR1 {mr1}, MR2 {mr2},");
        println!(
            "byte {byte}, a space of {} bytes; number and length:",
            self.space
        );
        println!("the chip says  {:?}", self.chip);
        println!("the model says {:?}", self.model);
        if self.chip == self.model {
            println!("what is in the space differs");
        }
    }
}

/// Runs them all: how many requests were compared.
pub fn run(seed: u64) -> Result<u64, Failure> {
    let mut draws = Generator::with_seed(seed);
    let mut requests = 0;
    for mr1 in 0..=255 {
        for mr2 in 0..=255 {
            requests += try_setting(&mut draws, mr1, mr2)?;
        }
    }
    Ok(requests)
}

fn try_setting(draws: &mut Generator, mr1: u8, mr2: u8) -> Result<u64, Failure> {
    let longest = model::frame(mr1, mr2, 0, &mut [0; 192]);
    let length = usize::from(longest.length);
    // A refused setting is refused for all bytes alike, so there one will do.
    if longest.number != 0 {
        return try_spaces(draws, mr1, mr2, 0, length);
    }
    let mut requests = try_bytes(mr1, mr2)?;
    for byte in [draws.byte(), 0, 255, 85, draws.byte()] {
        requests += try_spaces(draws, mr1, mr2, byte, length)?;
    }
    Ok(requests)
}

/// Every byte, in a space that holds any frame.
fn try_bytes(mr1: u8, mr2: u8) -> Result<u64, Failure> {
    for byte in 0..=255 {
        compare(mr1, mr2, byte, 192)?;
    }
    Ok(256)
}

/// One byte, in spaces about as long as the frame.
fn try_spaces(draws: &mut Generator, mr1: u8, mr2: u8, byte: u8, length: usize) -> Result<u64, Failure> {
    let any = draws.below(SPACE as u64) as usize;
    let spaces = [0, length.saturating_sub(1), length, length + 7, 192, any];
    for space in spaces {
        compare(mr1, mr2, byte, space)?;
    }
    Ok(spaces.len() as u64)
}

fn compare(mr1: u8, mr2: u8, byte: u8, space: usize) -> Result<(), Failure> {
    let (mut written, mut expected) = ([UNTOUCHED; SPACE], [UNTOUCHED; SPACE]);
    let chip = duart::frame_raw(mr1, mr2, byte, &mut written[..space]);
    let model = model::frame(mr1, mr2, byte, &mut expected[..space]);
    let chip = (chip.number, chip.length);
    let model = (model.number, model.length);
    if chip == model && written == expected {
        return Ok(());
    }
    Err(Failure {
        mr1,
        mr2,
        byte,
        space,
        chip,
        model,
    })
}

#[cfg(test)]
mod tests {
    use super::{compare, try_setting};
    use crate::generator::Generator;

    #[test]
    fn case_4_is_answered_alike() {
        assert!(compare(19, 7, 85, 160).is_ok());
    }

    #[test]
    fn each_setting_is_tried_with_all_bytes_and_in_all_spaces() {
        let mut draws = Generator::with_seed(1);
        assert!(matches!(try_setting(&mut draws, 19, 7), Ok(286)));
        assert!(matches!(try_setting(&mut draws, 31, 7), Ok(6)));
    }
}
