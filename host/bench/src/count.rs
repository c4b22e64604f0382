//! Instructions a tick: this program is run again under one that counts them, for some ticks and for more, and the
//! difference is divided by the ticks between, so that the start and the end of a run do not count.

use crate::loads::Load;
use std::env;
use std::error::Error;
use std::io::{BufRead, BufReader};
use std::process::{Command, Stdio};

/// A count, or why there is none.
type Count = Result<u64, Box<dyn Error>>;

/// The emulator that this program runs under, where `host/machine` names one. Valgrind cannot run a program of another
/// machine's, so there the emulator counts.
pub fn emulator() -> Option<String> {
    env::var("COUNT_WITH").ok()
}

/// What counts: an emulator that logs each instruction, or callgrind.
fn counter() -> Command {
    match emulator() {
        Some(emulator) => {
            let mut command = Command::new(emulator);
            command.args(["-singlestep", "-d", "nochain,exec"]);
            command
        }
        None => {
            let mut command = Command::new("valgrind");
            command.args(["--tool=callgrind", "--callgrind-out-file=/dev/null"]);
            command
        }
    }
}

/// The count that a log has: the emulator's a line for each instruction, callgrind's the sum. Where there is none, the
/// log's first line says why.
fn counted(mut log: impl BufRead) -> Count {
    let mut count = 0;
    let mut first = String::new();
    let mut line = String::new();
    while log.read_line(&mut line)? > 0 {
        if line.starts_with("Trace ") {
            count += 1;
        } else if let Some((_, sum)) = line.split_once("== Collected : ") {
            count = sum.trim().parse()?;
        } else if first.is_empty() {
            first = line.trim().to_string();
        }
        line.clear();
    }
    match count {
        0 => Err(format!("no count, it said {first:?}").into()),
        _ => Ok(count),
    }
}

/// Instructions of a whole run.
fn instructions(chip: &str, load: Load, ticks: u32) -> Count {
    let mut counter = counter();
    let mut child = counter
        .arg(env::current_exe()?)
        .args(["run", chip, load.name(), &ticks.to_string()])
        .stdout(Stdio::null())
        .stderr(Stdio::piped())
        .spawn()?;
    let log = child.stderr.take().expect("it is piped");
    let count = counted(BufReader::with_capacity(1 << 16, log));
    let status = child.wait()?;
    if count.is_ok() && !status.success() {
        return Err(format!("the run that is counted: {status}").into());
    }
    count
}

/// The nearest whole number of instructions for so many ticks as a load counts, where two runs took so many.
fn each(load: Load, fewer: u64, more: u64) -> Count {
    let [begin, end] = load.spans();
    let ticks = u64::from(end - begin);
    let between = more.checked_sub(fewer).ok_or("fewer for more ticks")?;
    Ok((between * load.ticks_counted() + ticks / 2) / ticks)
}

fn count(chip: &str, load: Load) -> Count {
    let [fewer, more] = load.spans();
    each(
        load,
        instructions(chip, load, fewer)?,
        instructions(chip, load, more)?,
    )
}

/// Instructions of a chip under a load, in the load's unit, or the line that says why they are not counted here.
pub fn of(chip: &str, load: Load) -> Result<u64, String> {
    count(chip, load).map_err(|why| {
        let counter = emulator().unwrap_or_else(|| "valgrind".to_string());
        format!("the instructions are not counted here ({counter}: {why})")
    })
}

#[cfg(test)]
mod tests {
    use super::*;

    fn said(count: Count) -> Result<u64, String> {
        count.map_err(|why| why.to_string())
    }

    fn counted_in(log: &str) -> Result<u64, String> {
        said(counted(log.as_bytes()))
    }

    #[test]
    fn an_emulator_has_a_line_for_each_instruction() {
        let log = "Trace 0: 0xffff [00/40/10/00] main\nTrace 0: 0xfffe [00/41/10/00] main\n";
        assert_eq!(counted_in(log), Ok(2));
    }

    #[test]
    fn callgrind_says_the_sum() {
        let log =
            "==7== Callgrind, a tool\n==7== Events    : Ir\n==7== Collected : 102994\n==7== \n";
        assert_eq!(counted_in(log), Ok(102_994));
    }

    #[test]
    fn a_log_without_a_count_is_no_count_of_nothing() {
        let log = "valgrind: failed to start\nand more\n";
        let why = "no count, it said \"valgrind: failed to start\"";
        assert_eq!(counted_in(log), Err(why.to_string()));
        assert!(counted_in("").is_err());
        assert!(counted_in("==7== Collected : 0\n").is_err());
        assert!(counted_in("==7== Collected : 10 20\n").is_err());
    }

    #[test]
    fn what_every_run_takes_is_left_out() {
        let each = |fewer, more| each(Load::Idle, fewer, more);
        assert_eq!(said(each(1000, 1000 + 735 * 1056)), Ok(735));
        assert_eq!(said(each(1000, 1000 + 735 * 1056 + 527)), Ok(735));
        assert_eq!(said(each(1000, 1000 + 735 * 1056 + 528)), Ok(736));
        assert!(each(1001, 1000).is_err());
    }

    #[test]
    fn a_run_is_counted_by_a_thousand_ticks() {
        assert_eq!(said(each(Load::RunFresh, 1000, 1000 + 46_080 / 2)), Ok(500));
        assert_eq!(said(each(Load::Run9600, 1000, 1000 + 40 * 7_680)), Ok(40_000));
    }
}
