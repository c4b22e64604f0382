//! How the one thing of an edit is put into a capture.

use crate::capture_edits::Edit;
use crate::capture_lines::{Lines, LAST_TIME};
use crate::capture_texts::Drawn;
use crate::captures::Asked;
use crate::generator::Generator;

impl Edit {
    /// The capture with this wrong in it; none where there is no place for it.
    pub fn made(self, drawn: &Drawn, draws: &mut Generator) -> Option<Asked> {
        let mut asked = drawn.asked();
        if self.alters_arguments() {
            self.alter(&mut asked, drawn, draws)?;
        } else {
            let mut lines = drawn.lines.lines();
            self.alter_lines(&mut lines, &drawn.lines, draws)?;
            asked.text = lines.concat();
        }
        Some(asked)
    }

    fn alters_arguments(self) -> bool {
        let of_names = matches!(self, Edit::MissingA | Edit::MissingB | Edit::NamePrefix);
        let of_longer = matches!(self, Edit::NameLonger | Edit::NameMuchLonger);
        let of_code = matches!(self, Edit::Mr1Bit7 | Edit::Mr1Bits43 | Edit::CodeTimer | Edit::CodeAbove15);
        let of_both = matches!(self, Edit::FiveAndBroken | Edit::RepeatedAndMissing | Edit::NameOfNone | Edit::CodeForName);
        of_names || of_longer || of_code || of_both
    }

    fn alter(self, asked: &mut Asked, drawn: &Drawn, draws: &mut Generator) -> Option<()> {
        let side = draws.below(2) as usize;
        match self {
            Edit::Mr1Bit7 => asked.mr1 |= 0x80,
            Edit::Mr1Bits43 => asked.mr1 |= 0x18,
            Edit::CodeTimer => asked.code = 13 + draws.small(3),
            Edit::CodeAbove15 => asked.code = draws.pick(&[16, 27, 128, 255]),
            Edit::FiveAndBroken => {
                asked.code = 13;
                asked.text = b"$".to_vec();
            }
            Edit::MissingA => asked.names[0] = b"missing".to_vec(),
            Edit::MissingB => asked.names[1] = b"missing".to_vec(),
            Edit::NamePrefix => drop(asked.names[side].pop()),
            Edit::NameLonger => asked.names[side].push(b'n'),
            Edit::NameMuchLonger => asked.names[side].extend([b'n'; 256]),
            Edit::NameOfNone => asked.names[side].clear(),
            Edit::CodeForName => asked.names[side] = vec![drawn.lines.wires[drawn.named[side]].0],
            _ => {
                let last = drawn.lines.last_time()?;
                asked.text.extend(format!("#{last}\n").into_bytes());
                asked.names[side] = b"missing".to_vec();
            }
        }
        Some(())
    }

    fn alter_lines(self, lines: &mut Vec<Vec<u8>>, drawn: &Lines, draws: &mut Generator) -> Option<()> {
        let last = drawn.last_time().unwrap_or(0);
        let end = format!("#{last}\n").into_bytes();
        match self {
            Edit::EmptyText => lines.clear(),
            Edit::NoLastLf => drop(lines.last_mut()?.pop()),
            Edit::HeaderLineGone => drop(lines.remove(draws.below(drawn.header() as u64) as usize)),
            Edit::LeadingZero => {
                let place = some_time(lines, drawn, draws)?;
                lines[place].insert(1, b'0');
            }
            Edit::TimeAbove => lines.push(time(LAST_TIME + draws.pick(&[1, 2, 294_967_295]))),
            Edit::TimeOver32Bits => lines.push(time((1 << 32) + last + 1)),
            Edit::TwentyDigits => lines.push(format!("#{}\n", (1u128 << 64) + u128::from(last) + 1).into_bytes()),
            Edit::NoDigits => lines.push(b"#\n".to_vec()),
            Edit::SignedTime => lines.push(format!("#{}{}\n", draws.pick(&['+', '-']), last + 1).into_bytes()),
            Edit::ValueFirst => lines.insert(drawn.header(), vec![b'1', drawn.wires[0].0, b'\n']),
            Edit::RepeatedTime => {
                let place = some_time(lines, drawn, draws)?;
                lines.insert(place, lines[place].clone());
            }
            Edit::RepeatedBefore => {
                let place = some_time(lines, drawn, draws)?;
                let before = lines[drawn.header()..place].iter().rev().find(|line| line[0] == b'#')?.clone();
                lines.insert(place, before);
            }
            Edit::RepeatedAtTheEnd => drawn.last_time().map(|_| lines.push(end))?,
            Edit::EarlierTime => lines.push(time(last.checked_sub(1 + draws.below(3))?)),
            Edit::RepeatedThenBroken => lines.extend([end.clone(), end, b"x!\n".to_vec()]),
            Edit::RepeatedThenAbove => lines.extend([end.clone(), end, time(LAST_TIME + 1)]),
            _ => return self.alter_a_line(lines, drawn, draws).or_else(|| self.alter_wires(lines, drawn, draws)),
        }
        Some(())
    }

    /// A line that is added or altered behind the header.
    fn alter_a_line(self, lines: &mut Vec<Vec<u8>>, drawn: &Lines, draws: &mut Generator) -> Option<()> {
        let header = drawn.header();
        let any = draws.between(0, lines.len() as u64 - 1) as usize;
        let code = drawn.wires[draws.below(drawn.wires.len() as u64) as usize].0;
        let behind = draws.between(header as u64 + 1, lines.len().max(header + 1) as u64) as usize;
        let line = match self {
            Edit::BlankLine => return Some(lines.insert(any + draws.below(2) as usize, b"\n".to_vec())),
            Edit::CarriageReturn => return before_lf(&mut lines[any], b"\r"),
            Edit::EveryCarriageReturn => return lines.iter_mut().try_for_each(|line| before_lf(line, b"\r")),
            Edit::LongLine => return before_lf(&mut lines[any], &[draws.pick(b" 0n"); 256]),
            Edit::TrailingSpace => return before_lf(&mut lines[any], b" "),
            Edit::ToolLine => {
                let line = draws.pick(&["$date today $end\n", "$version a tool's $end\n", "$comment of a tool $end\n"]);
                return Some(lines.insert(draws.below(header as u64 + 1) as usize, line.as_bytes().to_vec()));
            }
            Edit::LeadingSpace => return Some(lines[any].insert(0, b' ')),
            Edit::UnknownCode => vec![draws.pick(b"01"), unknown_code(drawn, draws)],
            Edit::ValueX => vec![draws.pick(b"xX"), code],
            Edit::ValueZ => vec![draws.pick(b"zZ"), code],
            Edit::TwoOnALine => vec![b'0', code, b'1', code],
            Edit::TimeWithValue => [format!("#{} 1", drawn.last_time()? + 1).as_bytes(), &[code]].concat(),
            Edit::Vector => [draws.pick(&["b1 ", "B0 ", "r1 ", "R0.5 "]).as_bytes(), &[code]].concat(),
            Edit::DumpVars => draws.pick(&["$dumpvars", "$dumpall", "$dumpon", "$dumpoff", "$end"]).as_bytes().to_vec(),
            Edit::Comment => b"$comment a capture $end".to_vec(),
            Edit::ValueAlone => b"1".to_vec(),
            _ => return None,
        };
        drawn.last_time()?;
        let place = if self == Edit::TimeWithValue { lines.len() } else { behind };
        lines.insert(place, [&line[..], b"\n"].concat());
        Some(())
    }

    /// A wire's line, one that is not named where there is one, or a byte of the others.
    fn alter_wires(self, lines: &mut Vec<Vec<u8>>, drawn: &Lines, draws: &mut Generator) -> Option<()> {
        let (first, wires) = (2, drawn.wires.len());
        let (code, name) = &drawn.wires[draws.below(wires as u64) as usize];
        let (free, other) = (unknown_code(drawn, draws), b"another".to_vec());
        let var = |code: u8, name: &[u8]| [b"$var wire 1 ", &[code][..], b" ", name, b" $end\n"].concat();
        let line = match self {
            Edit::CodeTwice => var(*code, &other),
            Edit::NameTwice => var(free, name),
            Edit::LongName => var(free, &vec![b'n'; draws.pick(&[33, 33, 64, 255, 256 + 7, 256 + 30])]),
            Edit::EmptyName => var(free, b""),
            Edit::NameWithSpace => var(free, b"two words"),
            Edit::CharacterOutside if draws.flip() => var(draws.pick(&[0, 1, b'\t', 31, b' ', 127, 128, 255]), &other),
            Edit::CharacterOutside => var(free, &[b'n', draws.pick(&[0, b'\t', b'\r', 127, 128, 255])]),
            Edit::SeventeenWires => {
                let more = (b'!'..=b'~').filter(|code| drawn.wires.iter().all(|wire| wire.0 != *code));
                let more = more.take(17 - wires).map(|code| var(code, format!("more{code}").as_bytes()));
                lines.splice(first..first, more);
                return Some(());
            }
            Edit::NoWire => return Some(drop(lines.drain(first..first + wires))),
            _ => {
                let place = draws.pick(&[0, 1, first, first + wires, first + wires + 1]);
                let line = &mut lines[place];
                let most = if place == first { 12 } else { line.len() as u64 };
                let byte = draws.below(most) as usize;
                line[byte] ^= 1 << draws.below(8);
                return Some(());
            }
        };
        if wires == 16 {
            return None;
        }
        lines.insert(first + draws.below(wires as u64 + 1) as usize, line);
        Some(())
    }
}

fn time(time: u64) -> Vec<u8> {
    format!("#{time}\n").into_bytes()
}

/// One of the times' lines.
fn some_time(lines: &[Vec<u8>], drawn: &Lines, draws: &mut Generator) -> Option<usize> {
    let behind = (drawn.header()..lines.len()).filter(|place| lines[*place][0] == b'#');
    let places: Vec<usize> = behind.collect();
    (!places.is_empty()).then(|| draws.pick(&places))
}

/// A code that no wire has.
fn unknown_code(drawn: &Lines, draws: &mut Generator) -> u8 {
    let unknown = (b'!'..=b'~').filter(|code| drawn.wires.iter().all(|wire| wire.0 != *code));
    draws.pick(&unknown.collect::<Vec<u8>>())
}

fn before_lf(line: &mut Vec<u8>, bytes: &[u8]) -> Option<()> {
    line.splice(line.len() - 1..line.len() - 1, bytes.iter().copied());
    Some(())
}
