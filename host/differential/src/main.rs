//! The differential test: the proved chip, through the archive's C interface, beside the independent model
//! of document 01 and its orders. `differential [EVENTS [SEED]]` runs so many events of random scripts, some of
//! them again through order 5's calls and through order 6's dump, then random captures (order 7), random devices and all
//! frame requests, and exits with 1 at the first difference, which it prints, of a script so that the replay program can
//! show it. From the fixed seed it also asks that the scripts reach all that coverage.rs counts, the calls all that
//! call_sights.rs counts, the dumps all that dump_sights.rs counts and the captures all that capture_sights.rs counts.

mod call_sights;
mod calls;
mod capture_altering;
mod capture_bytes;
mod capture_chip;
mod capture_counting;
mod capture_draws;
mod capture_dumps;
mod capture_edits;
mod capture_lengths;
mod capture_lines;
mod capture_sights;
mod capture_texts;
mod capture_waves;
mod captures;
mod counting;
mod coverage;
mod device_calls;
mod devices;
mod drawing;
mod dump_counting;
mod dump_draws;
mod dump_lengths;
mod dump_sights;
mod dump_walk;
mod dumps;
mod frames;
mod generator;
mod interface;
mod line;
mod long_runs;
mod loops;
mod mode_coverage;
mod modes;
mod moment;
mod pair;
mod program;
mod rates;
mod replays;
mod report;
mod run_sights;
mod script;
mod scripts;
mod sights;
mod sound;
mod starts;

use call_sights::CallCoverage;
use capture_sights::CaptureCoverage;
use coverage::Coverage;
use dump_sights::DumpCoverage;
use scripts::Scripts;
use std::process::ExitCode;

/// Enough to reach every sight of coverage.rs many times, in a second or two.
const EVENTS: u64 = 4_000_000;
const DEVICES: u64 = 200_000;
const CALLED_DEVICES: u64 = 4_000;
const DUMPED_DEVICES: u64 = 8_000;
const CAPTURES: u64 = 2_500;
const SENDING: u64 = 120;
const PIECES: u64 = 2_000;
const SEED: u64 = 1;

/// EVENTS and SEED; none where an argument is no number or there are more.
fn arguments() -> Option<(u64, u64)> {
    let arguments: Vec<String> = std::env::args().skip(1).collect();
    let number = |place: usize, or: u64| match arguments.get(place) {
        Some(text) => text.parse().ok(),
        None => Some(or),
    };
    let numbers = (number(0, EVENTS)?, number(1, SEED)?);
    (arguments.len() <= 2).then_some(numbers)
}

/// The scripts, with what they reached; from the fixed seed a run as long as the default one must reach everything.
fn run_scripts(events: u64, seed: u64) -> Result<(String, Scripts), ()> {
    let mut coverage = Coverage::default();
    let scripts = scripts::run(events, seed, &mut coverage).map_err(|failure| {
        report::print(&failure);
    })?;
    coverage.print();
    let missing = coverage.missing();
    if seed == SEED && events >= EVENTS && !missing.is_empty() {
        println!("the scripts never reached: {}", missing.join(", "));
        return Err(());
    }
    let done = format!("seed {seed}: {} events in {} scripts", coverage.events(), scripts.count);
    Ok((done, scripts))
}

/// Order 5's calls: the scripts that were kept, drawn devices, and the largest budgets from the fixed seed alone.
fn run_calls(events: u64, seed: u64, scripts: &Scripts) -> Result<String, ()> {
    let mut coverage = CallCoverage::default();
    for (seed, events) in &scripts.kept {
        replays::run(*seed, events, &mut coverage).map_err(|misfit| misfit.print())?;
    }
    device_calls::run(CALLED_DEVICES, seed, &mut coverage).map_err(|failure| failure.print())?;
    if seed == SEED {
        long_runs::run(seed, &mut coverage).map_err(|failure| failure.print())?;
    }
    coverage.print();
    let missing = coverage.missing();
    if seed == SEED && events >= EVENTS && !missing.is_empty() {
        println!("the calls never met: {}", missing.join(", "));
        return Err(());
    }
    Ok(format!("{} polls, {} runs", coverage.polls, coverage.runs))
}

/// Order 6's dumps: the scripts that were kept, drawn devices, and the longest lists from the fixed seed alone.
fn run_dumps(events: u64, seed: u64, scripts: &Scripts) -> Result<String, ()> {
    let mut coverage = DumpCoverage::default();
    for (seed, events) in &scripts.kept {
        dump_draws::run(*seed, events, &mut coverage).map_err(|misfit| misfit.print())?;
    }
    dump_draws::run_devices(DUMPED_DEVICES, seed, &mut coverage).map_err(|failure| failure.print())?;
    if seed == SEED {
        dump_lengths::run(seed, &mut coverage).map_err(|failure| failure.print())?;
    }
    coverage.print();
    let missing = coverage.missing();
    if seed == SEED && events >= EVENTS && !missing.is_empty() {
        println!("the dumps never met: {}", missing.join(", "));
        return Err(());
    }
    Ok(format!("{} dumps", coverage.dumps))
}

/// Order 7's captures: drawn ones, dumps of the scripts that were kept and of chips that send, texts of pieces, and from the
/// fixed seed alone the longest, and all that is a byte away from a small one.
fn run_captures(events: u64, seed: u64, scripts: &Scripts) -> Result<String, ()> {
    let mut coverage = CaptureCoverage::default();
    let read = capture_draws::run(CAPTURES, seed, &mut coverage)
        .and_then(|()| capture_dumps::run(&scripts.kept, seed, &mut coverage))
        .and_then(|()| capture_dumps::run_sending(SENDING, seed, &mut coverage))
        .and_then(|()| capture_dumps::run_pieces(PIECES, seed, &mut coverage));
    read.map_err(|failure| failure.print())?;
    if seed == SEED {
        let read = capture_lengths::run(seed, &mut coverage).and_then(|()| capture_bytes::run(&mut coverage));
        read.map_err(|failure| failure.print())?;
    }
    coverage.print();
    let missing = coverage.missing();
    if seed == SEED && events >= EVENTS && !missing.is_empty() {
        println!("the captures never met: {}", missing.join(", "));
        return Err(());
    }
    Ok(format!("{} captures", coverage.captures))
}

fn run_devices(seed: u64) -> Result<String, ()> {
    let tally = devices::run(DEVICES, seed).map_err(|failure| failure.print())?;
    println!("{:>10} sound devices", tally.sound);
    println!("{:>10} unsound devices", tally.unsound);
    println!("{:>10} events on them accepted", tally.accepted);
    println!("{:>10} events on them refused", tally.refused);
    println!("{:>10} fresh reads of them", tally.fresh);
    println!("{:>10} stale reads of them", tally.stale);
    println!("{:>10} mode changes of them", tally.mode_changes);
    println!("{:>10} ticks and pin events on them, sending in an echo mode", tally.odd_echoes);
    println!("{:>10} timer starts of them from low", tally.rises);
    println!("{:>10} counter starts of them, the output low", tally.low_counter_starts);
    if tally.fresh == 0 || tally.stale == 0 {
        println!("no drawn device was read fresh, or none stale");
        return Err(());
    }
    if tally.mode_changes == 0 || tally.odd_echoes == 0 {
        println!("no drawn device changed its mode, or none was sending in an echo mode");
        return Err(());
    }
    if tally.rises == 0 || tally.low_counter_starts == 0 {
        println!("no drawn timer was started from low, or no counter with the output low");
        return Err(());
    }
    Ok(format!("{DEVICES} devices"))
}

fn run_frames(seed: u64) -> Result<String, ()> {
    let requests = frames::run(seed).map_err(|failure| failure.print())?;
    Ok(format!("{requests} frame requests"))
}

fn run_all(events: u64, seed: u64) -> Result<(), ()> {
    let (done, scripts) = run_scripts(events, seed)?;
    let calls = run_calls(events, seed, &scripts)?;
    let dumps = run_dumps(events, seed, &scripts)?;
    let captures = run_captures(events, seed, &scripts)?;
    let devices = run_devices(seed)?;
    let frames = run_frames(seed)?;
    println!("{done}, {calls}, {dumps}, {captures} and {frames}: the chip and the model do not differ; {devices}: sound or refused as they should be");
    Ok(())
}

fn main() -> ExitCode {
    match arguments().map(|(events, seed)| run_all(events, seed)) {
        None => {
            eprintln!("usage: differential [EVENTS [SEED]]");
            ExitCode::from(2)
        }
        Some(Ok(())) => ExitCode::SUCCESS,
        Some(Err(())) => ExitCode::FAILURE,
    }
}
