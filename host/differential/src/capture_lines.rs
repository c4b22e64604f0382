//! A capture before it is text: its wires and its times, so that another can be made of it which differs in one thing.

/// A value of a wire, by its place in the header.
pub type Value = (usize, bool);

#[derive(Clone)]
pub struct Lines {
    /// The code and the name of each.
    pub wires: Vec<(u8, Vec<u8>)>,
    pub times: Vec<(u64, Vec<Value>)>,
}

/// "times up to 4,000,000,000 ns"
pub const LAST_TIME: u64 = 4_000_000_000;

impl Lines {
    /// Each line with its LF.
    pub fn lines(&self) -> Vec<Vec<u8>> {
        let wires = self.wires.iter().map(|(code, name)| [b"$var wire 1 ", &[*code][..], b" ", name, b" $end\n"].concat());
        let mut lines = vec![b"$timescale 1 ns $end\n".to_vec(), b"$scope module duart $end\n".to_vec()];
        lines.extend(wires);
        lines.extend([b"$upscope $end\n".to_vec(), b"$enddefinitions $end\n".to_vec()]);
        for (time, values) in &self.times {
            lines.push(format!("#{time}\n").into_bytes());
            lines.extend(values.iter().map(|(wire, high)| vec![b'0' + u8::from(*high), self.wires[*wire].0, b'\n']));
        }
        lines
    }

    pub fn text(&self) -> Vec<u8> {
        self.lines().concat()
    }

    /// How many lines the header has.
    pub fn header(&self) -> usize {
        self.wires.len() + 4
    }

    pub fn last_time(&self) -> Option<u64> {
        self.times.last().map(|(time, _)| *time)
    }

    // ------------------------------------------------------------ others, which differ in one thing

    /// All but the last time a nanosecond later, where that leaves them in order: what stands at a tick's very time then
    /// counts from the next tick on.
    pub fn a_little_later(&self) -> Lines {
        let mut later = self.clone();
        let next: Vec<u64> = self.times.iter().skip(1).map(|(time, _)| *time).collect();
        for ((time, _), next) in later.times.iter_mut().zip(next) {
            *time += u64::from(*time + 1 < next);
        }
        later
    }

    /// The last time a nanosecond sooner.
    pub fn ended_sooner(&self) -> Option<Lines> {
        let mut sooner = self.clone();
        let before = self.times.iter().rev().nth(1).map_or(0, |(time, _)| *time + 1);
        let (last, _) = sooner.times.last_mut()?;
        *last = last.checked_sub(1).filter(|time| *time >= before)?;
        Some(sooner)
    }

    /// The last time without its values.
    pub fn without_the_last_values(&self) -> Lines {
        let mut without = self.clone();
        if let Some((_, values)) = without.times.last_mut() {
            values.clear();
        }
        without
    }

    /// Of each time the first value of a wire, and none of the others.
    pub fn first_values(&self) -> Lines {
        let mut firsts = self.clone();
        for (_, values) in &mut firsts.times {
            let all = values.clone();
            let mut place = 0;
            values.retain(|(wire, _)| {
                place += 1;
                all[..place - 1].iter().all(|(other, _)| other != wire)
            });
        }
        firsts
    }

    /// All times moved, so that the first is 0.
    pub fn from_time_0(&self) -> Lines {
        let mut moved = self.clone();
        let first = self.times.first().map_or(0, |(time, _)| *time);
        moved.times.iter_mut().for_each(|(time, _)| *time -= first);
        moved
    }

    /// Both named wires low at time 0, where they have no value there.
    pub fn low_at_first(&self, named: [usize; 2]) -> Lines {
        let mut low = self.clone();
        if self.times.first().map_or(true, |(time, _)| *time > 0) {
            low.times.insert(0, (0, Vec::new()));
        }
        low.times[0].1.splice(0..0, named.map(|wire| (wire, false)));
        low
    }
}

#[cfg(test)]
mod tests {
    use super::Lines;

    fn lines() -> Lines {
        let wires = vec![(b'!', b"A".to_vec()), (b'0', b"B".to_vec())];
        Lines { wires, times: vec![(5, vec![(0, false), (1, true), (0, true)]), (6, vec![]), (9, vec![(1, false)])] }
    }

    fn body(lines: &Lines) -> String {
        String::from_utf8(lines.lines()[lines.header()..].concat()).expect("it is ASCII")
    }

    #[test]
    fn they_are_written() {
        let text = String::from_utf8(lines().text()).expect("it is ASCII");
        assert!(text.starts_with("$timescale 1 ns $end\n$scope module duart $end\n$var wire 1 ! A $end\n$var wire 1 0 B $end\n"));
        assert_eq!(body(&lines()), "#5\n0!\n10\n1!\n#6\n#9\n00\n");
    }

    #[test]
    fn others_differ_in_one_thing() {
        assert_eq!(body(&lines().a_little_later()), "#5\n0!\n10\n1!\n#7\n#9\n00\n");
        assert_eq!(lines().ended_sooner().map(|sooner| body(&sooner)), Some("#5\n0!\n10\n1!\n#6\n#8\n00\n".to_string()));
        assert_eq!(body(&lines().without_the_last_values()), "#5\n0!\n10\n1!\n#6\n#9\n");
        assert_eq!(body(&lines().first_values()), "#5\n0!\n10\n#6\n#9\n00\n");
        assert_eq!(body(&lines().from_time_0()), "#0\n0!\n10\n1!\n#1\n#4\n00\n");
        assert_eq!(body(&lines().low_at_first([0, 1])), "#0\n0!\n00\n#5\n0!\n10\n1!\n#6\n#9\n00\n");
    }
}
