//! Reads a dump as order 6 writes it: `$var` lines, then times and values.

/// A wire: its name, and each value with the time from which it holds.
#[derive(Debug, PartialEq, Eq)]
pub struct Wire {
    pub name: String,
    code: char,
    pub values: Vec<(u64, bool)>,
}

/// The wires in their order, and the last time.
#[derive(Debug, PartialEq, Eq)]
pub struct Wave {
    pub wires: Vec<Wire>,
    pub end: u64,
}

/// The wires, or the line that is not one of a dump.
pub fn read(text: &str) -> Result<Wave, String> {
    let mut wave = Wave { wires: Vec::new(), end: 0 };
    for line in text.lines() {
        wave.take(line).ok_or_else(|| format!("not a line of a dump: {line}"))?;
    }
    Ok(wave)
}

impl Wave {
    fn take(&mut self, line: &str) -> Option<()> {
        let words: Vec<&str> = line.split(' ').collect();
        match words[..] {
            ["$var", "wire", "1", code, name, "$end"] => {
                let code = code.chars().next()?;
                self.wires.push(Wire { name: name.to_string(), code, values: Vec::new() });
            }
            ["$timescale", "1", "ns", "$end"] | ["$scope", "module", _, "$end"] => {}
            ["$upscope", "$end"] | ["$enddefinitions", "$end"] => {}
            [time] if time.starts_with('#') => self.end = time[1..].parse().ok()?,
            [value] => return self.change(value),
            _ => return None,
        }
        Some(())
    }

    fn change(&mut self, value: &str) -> Option<()> {
        let mut letters = value.chars();
        let high = match letters.next()? {
            '0' => false,
            '1' => true,
            _ => return None,
        };
        let code = letters.next()?;
        let wire = self.wires.iter_mut().find(|wire| wire.code == code)?;
        wire.values.push((self.end, high));
        letters.next().is_none().then_some(())
    }
}

#[cfg(test)]
mod tests {
    use super::read;

    const TEXT: &str = "$timescale 1 ns $end\n$scope module duart $end\n$var wire 1 ! TxDA $end\n$var wire 1 # IRQ $end\n\
                        $upscope $end\n$enddefinitions $end\n#0\n1!\n0#\n#271\n0!\n";

    #[test]
    fn wires_have_their_values_and_times() {
        let wave = read(TEXT).expect("it is a dump");
        assert_eq!(wave.end, 271);
        assert_eq!(wave.wires[0].values, [(0, true), (271, false)]);
        assert_eq!((wave.wires[1].name.as_str(), &wave.wires[1].values[..]), ("IRQ", &[(0, false)][..]));
    }

    #[test]
    fn other_lines_are_refused() {
        for line in ["x!", "1%", "1!!", "#1x", "$date today $end", "1"] {
            assert!(read(&format!("{TEXT}{line}\n")).is_err(), "{line}");
        }
    }
}
