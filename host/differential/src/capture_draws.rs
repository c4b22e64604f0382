//! Drawn captures, read: each with logs of several lengths, with one thing wrong at a time, and some by the chip itself.

use crate::capture_chip;
use crate::capture_edits::EDITS;
use crate::capture_sights::{CaptureCoverage, CaptureSight};
use crate::capture_texts::Drawn;
use crate::captures::{Asked, Reading};
use crate::generator::Generator;
use duart::{CaptureAnswer, Channel};
use model::character::Character;

/// So many things are put wrong in a drawn capture, one at a time.
const EDITS_EACH: usize = 6;

pub fn run(captures: u64, seed: u64, coverage: &mut CaptureCoverage) -> Reading<()> {
    let draws = Generator::with_seed(seed.rotate_left(7));
    let mut reader = Reader { draws, coverage };
    for _ in 0..captures {
        reader.one()?;
    }
    Ok(())
}

/// What is drawn from, with what is counted.
pub struct Reader<'a> {
    pub draws: Generator,
    pub coverage: &'a mut CaptureCoverage,
}

/// The bytes of each channel's characters.
pub fn bytes(both: &[Vec<Character>; 2]) -> [usize; 2] {
    [2 * both[0].len(), 2 * both[1].len()]
}

impl Reader<'_> {
    fn one(&mut self) -> Reading<()> {
        let drawn = Drawn::drawn(&mut self.draws);
        let asked = drawn.asked();
        let both = asked.characters().map_err(|number| {
            let told = format!("refused by {number}");
            asked.failure("a drawn capture is outside the subset", told)
        })?;
        self.coverage.see_lines(&drawn, &both);
        self.by_the_chip(&drawn, &both)?;
        self.accepted(&asked, bytes(&both))?;
        for _ in 0..EDITS_EACH {
            self.edited(&drawn, bytes(&both))?;
        }
        Ok(())
    }

    fn by_the_chip(&mut self, drawn: &Drawn, both: &[Vec<Character>; 2]) -> Reading<()> {
        let received = capture_chip::received(drawn);
        if received.as_ref().map_or(false, |received| received != both) {
            let told = format!("the chip:  {received:?}\nthe model: {both:?}");
            return Err(drawn.asked().failure("the chip's own characters are others than the model's", told));
        }
        let any = !both[0].is_empty() || !both[1].is_empty();
        self.coverage.note_if(received.is_some() && any, CaptureSight::ByTheChip);
        Ok(())
    }

    fn read(&mut self, asked: &Asked, needed: [usize; 2], sizes: [usize; 2]) -> Reading<CaptureAnswer> {
        let channel = self.draws.pick(&[Channel::A, Channel::B]);
        let answer = asked.read(sizes, channel)?;
        self.coverage.see_call(needed, sizes, channel, answer);
        Ok(answer)
    }

    /// With logs that are enough, longer, with an odd byte, a byte short, much shorter, and none.
    pub fn accepted(&mut self, asked: &Asked, needed: [usize; 2]) -> Reading<()> {
        let [a, b] = needed;
        let past = [a, b].map(|size| size + 2 + self.draws.below(9) as usize);
        let less = [a, b].map(|size| self.draws.below(size as u64 + 1) as usize);
        let one_less = [a.saturating_sub(1), b.saturating_sub(1)];
        let all = [
            [a, b],
            past,
            [a + 1, b],
            [a, b + 1],
            [one_less[0], b],
            [a, one_less[1]],
            [one_less[0], past[1]],
            [past[0], one_less[1]],
            less,
            [0, 0],
        ];
        all.into_iter().try_for_each(|sizes| self.read(asked, needed, sizes).map(|_| ()))
    }

    /// One thing wrong: with logs that would be enough, or none.
    fn edited(&mut self, drawn: &Drawn, needed: [usize; 2]) -> Reading<()> {
        let place = self.draws.below(EDITS.len() as u64) as usize;
        let (edit, number, _) = EDITS[place];
        let asked = match edit.made(drawn, &mut self.draws) {
            Some(asked) => asked,
            None => return Ok(()),
        };
        if asked.characters() == Err(number) {
            self.coverage.edits[place] += 1;
            self.read(&asked, needed, needed)?;
            return self.read(&asked, needed, [0, 0]).map(|_| ());
        }
        let needed = asked.characters().map_or([0, 0], |both| bytes(&both));
        self.read(&asked, needed, needed).map(|_| ())
    }
}

#[cfg(test)]
mod tests {
    use super::run;
    use crate::capture_sights::{CaptureCoverage, CaptureSight};

    #[test]
    fn captures_of_each_sort_are_read() {
        let mut coverage = CaptureCoverage::default();
        assert!(run(300, 1, &mut coverage).is_ok());
        let met = [CaptureSight::OneWireForBoth, CaptureSight::ShortByOneA, CaptureSight::VeryTime, CaptureSight::ByTheChip];
        assert!(met.iter().all(|sight| coverage.of(*sight) > 0));
        assert!(coverage.edits.iter().filter(|count| **count > 0).count() > 40);
    }
}
