//! What is recorded of the archive, and whether it keeps to that.

use crate::chips::{PLAIN, PROVED};
use crate::count;
use crate::loads::Load;
use crate::REAL_TIME;
use std::fs;

/// A count may be so many percent above what is recorded.
const PERCENT: u64 = 10;

/// What a record asks of a load.
#[derive(Clone, Copy, Debug, PartialEq, Eq)]
enum Asked {
    /// `idle 735`: the count of a landing, and at most 10% above it.
    About(u64),
    /// `poll 400 at most`
    AtMost(u64),
    /// `run-fresh 1000 times`: real time, by the record's rate.
    Times(u64),
    /// `dump 5 plain at most`: as many times what the plain model takes.
    PlainAtMost(u64),
}

/// Instructions in a load's unit. The plain model's are counted where they are asked for.
#[derive(Clone, Copy)]
struct Counts {
    proved: u64,
    plain: u64,
}

impl Counts {
    fn of(load: Load, asked: Asked) -> Result<Counts, String> {
        let plain = match asked {
            Asked::PlainAtMost(_) => count::of(PLAIN, load)?,
            Asked::About(_) | Asked::AtMost(_) | Asked::Times(_) => 0,
        };
        Ok(Counts { proved: count::of(PROVED, load)?, plain })
    }
}

/// What stands after a word in a record. A line that begins with # is for its reader.
fn line_of<'a>(record: &'a str, word: &str) -> Option<Vec<&'a str>> {
    record.lines().find_map(|line| {
        let mut words = line.split_whitespace();
        (words.next() == Some(word)).then(|| words.collect())
    })
}

fn asked(record: &str, load: Load) -> Option<Asked> {
    match line_of(record, load.name())?[..] {
        [number] => number.parse().ok().map(Asked::About),
        [number, "at", "most"] => number.parse().ok().map(Asked::AtMost),
        [number, "times"] => number.parse().ok().map(Asked::Times),
        [number, "plain", "at", "most"] => number.parse().ok().map(Asked::PlainAtMost),
        _ => None,
    }
}

/// `rate 5000`: so many million instructions a second.
fn rate(record: &str) -> Option<u64> {
    match line_of(record, "rate")?[..] {
        [number] => number.parse().ok(),
        _ => None,
    }
}

/// How many times real time so many instructions for a load's ticks are, by a rate.
fn times_real_time(load: Load, count: u64, rate: u64) -> f64 {
    let ticks_a_second = rate as f64 * 1e6 * load.ticks_counted() as f64 / count as f64;
    ticks_a_second / REAL_TIME
}

/// Whether a count is what is asked, and the words that say what it is beside that.
fn judged(load: Load, counts: Counts, asked: Asked, rate: u64) -> (bool, String) {
    let (unit, Counts { proved: count, plain }) = (load.unit(), counts);
    let times = count as f64 / plain as f64;
    match asked {
        Asked::About(recorded) => (
            count * 100 <= recorded * (100 + PERCENT),
            format!("{count} {unit}, {recorded} recorded, {PERCENT}% more allowed"),
        ),
        Asked::AtMost(most) => (count <= most, format!("{count} {unit}, at most {most} asked")),
        Asked::Times(asked) => {
            let times = times_real_time(load, count, rate);
            let said = format!("{count} {unit}, {times:.0} times real time at {rate} million instructions a second, {asked} asked");
            (times >= asked as f64, said)
        }
        Asked::PlainAtMost(most) => {
            let said = format!("{count} {unit}, {times:.2} times the plain model's {plain}, at most {most} asked");
            (count <= most * plain, said)
        }
    }
}

/// Whether the archive keeps to what the file records, a line for each load. Where nothing counts, that is said, and
/// nothing is broken.
pub fn keeps_to(file: &str) -> Result<bool, String> {
    let record = fs::read_to_string(file).map_err(|why| format!("{file}: {why}"))?;
    let rate = rate(&record).ok_or_else(|| format!("{file}: no line of rate"))?;
    let mut kept = true;
    for load in Load::ALL {
        let name = load.name();
        let asked = asked(&record, load).ok_or_else(|| format!("{file}: no line of {name}"))?;
        match Counts::of(load, asked) {
            Ok(counts) => {
                let (is_kept, said) = judged(load, counts, asked, rate);
                println!("{name}: {said}");
                if !is_kept {
                    println!("{name}: not what {file} asks");
                    kept = false;
                }
            }
            Err(why) => {
                println!("{why}");
                break;
            }
        }
    }
    Ok(kept)
}

#[cfg(test)]
mod tests {
    use super::*;

    fn proved(proved: u64) -> Counts {
        Counts { proved, plain: 0 }
    }

    #[test]
    fn a_record_has_a_line_for_each_load() {
        let record = "# idle 1\nidle 735\nbusy  960 \npoll 400 at most\nrun-fresh 1000 times\nrate 5000\ndump 5 plain at most\n";
        assert_eq!(asked(record, Load::Idle), Some(Asked::About(735)));
        assert_eq!(asked(record, Load::Busy), Some(Asked::About(960)));
        assert_eq!(asked(record, Load::Poll), Some(Asked::AtMost(400)));
        assert_eq!(asked(record, Load::RunFresh), Some(Asked::Times(1_000)));
        assert_eq!(asked(record, Load::Dump), Some(Asked::PlainAtMost(5)));
        assert_eq!(asked(record, Load::Run9600), None);
        assert_eq!(rate(record), Some(5_000));
        assert_eq!(asked("idleness 5\nidle\nidle many\n", Load::Idle), None);
    }

    #[test]
    fn the_record_that_is_kept_has_all() {
        let record = include_str!("../instructions");
        assert!(rate(record).is_some());
        assert!(Load::ALL
            .into_iter()
            .all(|load| asked(record, load).is_some()));
    }

    #[test]
    fn a_tenth_more_is_kept_and_what_is_over_it_is_not() {
        let is_kept = |count, recorded| judged(Load::Idle, proved(count), Asked::About(recorded), 1).0;
        assert!(is_kept(1, 700));
        assert!(is_kept(770, 700));
        assert!(!is_kept(771, 700));
        assert!(is_kept(772, 702));
        assert!(!is_kept(773, 702));
    }

    #[test]
    fn what_is_asked_at_most_is_kept_and_what_is_over_it_is_not() {
        assert!(judged(Load::Poll, proved(400), Asked::AtMost(400), 1).0);
        assert!(!judged(Load::Poll, proved(401), Asked::AtMost(400), 1).0);
    }

    /// 36,864 instructions a thousand ticks are 36.864 a tick, and 4,076.864 million of them a second 30 times real time.
    #[test]
    fn times_real_time_go_by_the_rate() {
        let is_kept = |rate| judged(Load::Run9600, proved(36_864), Asked::Times(30), rate).0;
        assert!(is_kept(4_077));
        assert!(!is_kept(4_076));
        assert!(judged(Load::RunFresh, proved(1_000), Asked::Times(1_000), 3_687).0);
        assert!(!judged(Load::RunFresh, proved(1_000), Asked::Times(1_000), 3_686).0);
    }

    #[test]
    fn a_fifth_of_the_plain_speed_is_kept_and_what_is_below_it_is_not() {
        let is_kept = |proved| judged(Load::Dump, Counts { proved, plain: 100 }, Asked::PlainAtMost(5), 1).0;
        assert!(is_kept(99) && is_kept(500));
        assert!(!is_kept(501));
    }

    #[test]
    fn a_record_that_is_not_there_is_an_error() {
        assert!(keeps_to("host/bench/no-such-record").is_err());
    }
}
