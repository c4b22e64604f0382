//! Ticks a second and instructions a tick, the proved chip through `duart_step` beside the independent model, both
//! built for release: idle, and with both channels sending and receiving; then through `duart_poll` and `duart_run` (order 5),
//! the dump of a list of 1,000,000 events, beside the model's plain writer (order 6), that dump read back and a capture of
//! 4,000,000,000 ns with few changes, beside the model's plain reader (order 7).
//! Of the times it is the ratio of the two that counts, and each against real time; the times themselves are the machine's.
//!
//! `bench` prints times and counts; under an emulator the counts alone, for a time there says nothing.
//! `bench check FILE` counts, and fails where the archive takes more instructions than FILE asks.
//! `bench run proved|plain LOAD TICKS` does that and nothing else: it is what is counted. Loads are those of loads.rs by name.

mod capturing;
mod chips;
mod count;
mod dumping;
mod loads;
mod record;

use chips::{Chip, PLAIN, PROVED};
use loads::Load;
use std::process::ExitCode;
use std::time::{Duration, Instant};
use std::{env, mem};

/// The crystal's ticks a second.
pub const REAL_TIME: f64 = 3_686_400.0;
const ROUNDS: usize = 15;

/// Ticks a second, by the median of so many rounds, and the sum over what was seen.
fn timed<C: Chip>(load: Load) -> (f64, u64) {
    let ticks = load.ticks_a_round();
    let mut ready = load.ready::<C>(ticks);
    let mut times: Vec<Duration> = Vec::new();
    let mut sum = 0u64;
    for _ in 0..ROUNDS {
        let begin = Instant::now();
        sum = sum.wrapping_add(load.run(&mut ready, ticks));
        times.push(begin.elapsed());
    }
    times.sort();
    (
        f64::from(ticks) / times[ROUNDS / 2].as_secs_f64(),
        sum,
    )
}

fn print_times(load: Load) {
    let proved = timed::<duart::Duart>(load);
    let plain = timed::<model::Chip>(load);
    let name = load.name();
    assert_eq!(proved.1, plain.1, "{name}: the two did not see the same");
    println!(
        "{name}: proved {:.1} million ticks a second ({:.1} times real time), plain model {:.1}; proved / plain {:.2}",
        proved.0 / 1e6,
        proved.0 / REAL_TIME,
        plain.0 / 1e6,
        proved.0 / plain.0
    );
}

/// The proved chip's count beside the plain model's, and beside what so many idle ticks are by steps.
fn print_counts(load: Load, step: &mut Option<u64>) -> Result<(), String> {
    let proved = count::of(PROVED, load)?;
    let plain = count::of(PLAIN, load)?;
    let step = *step.get_or_insert(proved) * load.ticks_counted();
    println!(
        "{}: proved {proved} {}, plain model {plain}; proved / plain {:.4}, proved / idle steps {:.4}",
        load.name(),
        load.unit(),
        proved as f64 / plain as f64,
        proved as f64 / step as f64
    );
    Ok(())
}

fn measure() {
    println!("Device: {} bytes", mem::size_of::<duart::Device>());
    if count::emulator().is_none() {
        Load::ALL.into_iter().for_each(print_times);
    }
    let mut step = None;
    let counted = Load::ALL.into_iter().try_for_each(|load| print_counts(load, &mut step));
    if let Err(why) = counted {
        println!("{why}");
    }
}

fn check(file: &str) -> ExitCode {
    match record::keeps_to(file) {
        Ok(true) => ExitCode::SUCCESS,
        Ok(false) => ExitCode::FAILURE,
        Err(why) => {
            eprintln!("bench: {why}");
            ExitCode::from(2)
        }
    }
}

fn usage() -> ExitCode {
    let loads = Load::ALL.map(Load::name).join("|");
    eprintln!("bench: `bench`, `bench check FILE` or `bench run proved|plain {loads} TICKS`");
    ExitCode::from(2)
}

fn main() -> ExitCode {
    let words: Vec<String> = env::args().skip(1).collect();
    match words.iter().map(String::as_str).collect::<Vec<_>>()[..] {
        [] => measure(),
        ["check", file] => return check(file),
        ["run", chip, load, ticks] => match loads::run(chip, load, ticks) {
            Some(sum) => println!("{sum}"),
            None => return usage(),
        },
        _ => return usage(),
    }
    ExitCode::SUCCESS
}
