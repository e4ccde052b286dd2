//! Trials with a given number of flows held, through the doors of the proved static library: flowtrial's input and lines, without its limit on areas.

mod trial;

use std::io::{self, Read, Write};
use std::process::ExitCode;
use trial::{outcome, HeldLoad};

// The load, and the settings of a trial.
const LOAD: usize = 32;
const TRIAL: usize = 12;

fn main() -> ExitCode {
    match run() {
        Ok(()) => ExitCode::SUCCESS,
        Err(fault) => {
            eprintln!("{fault}");
            ExitCode::FAILURE
        }
    }
}

fn run() -> io::Result<()> {
    let mut input = Vec::new();
    io::stdin().read_to_end(&mut input)?;
    if input.len() < LOAD {
        return Ok(());
    }
    let (load, trials) = input.split_at(LOAD);
    // refused (15): nothing is printed
    if let Some(load) = HeldLoad::of(load) {
        for (at, trial) in trials.chunks(TRIAL).enumerate() {
            let numbers = outcome(&load, trial).map(|number| number.to_string());
            let mut out = io::stdout();
            writeln!(out, "{} {}", at + 1, numbers.join(" "))?;
            out.flush()?;
        }
    }
    Ok(())
}
