//! Trials of settings, as lines of text, shown as a table and as a picture. The first word is the folder of the commands, where flowtrial and
//! heldtrial are; the others are those of bin/trials.

mod lines;
mod plot;
mod running;
mod settings;
mod table;
mod words;

use lines::Trials;
use plot::Plot;
use std::fs;
use std::io::{self, Read, Write};
use std::path::Path;
use std::process::ExitCode;
use table::{Last, Table};
use words::{Asked, Load, Source};

// Why nothing, or not everything, was done.
enum Fault {
    Words(String),
    Run(String),
}

fn main() -> ExitCode {
    let words: Vec<String> = std::env::args().skip(1).collect();
    let done = match words.split_first() {
        None => Err(Fault::Words(
            "trials BIN .., as bin/trials calls it".to_string(),
        )),
        Some((bin, words)) => match words::asked(words) {
            Err(fault) => Err(Fault::Words(format!("{fault} (bin/trials --help)"))),
            Ok(None) => output(words::HELP),
            Ok(Some(asked)) => run(Path::new(bin), &asked),
        },
    };
    let (fault, status) = match done {
        Ok(()) => return ExitCode::SUCCESS,
        Err(Fault::Words(fault)) => (fault, 2),
        Err(Fault::Run(fault)) => (fault, 1),
    };
    eprintln!("{fault}");
    ExitCode::from(status)
}

fn run(bin: &Path, asked: &Asked) -> Result<(), Fault> {
    let trials = trials_of(&asked.source).map_err(Fault::Words)?;
    let plot = match &asked.plot {
        None => None,
        Some(file) => Some((file, plot_of(file, &trials).map_err(Fault::Words)?)),
    };
    let (program, load, last) = match asked.held {
        None => {
            let searches = running::searches(&asked.load);
            ("flowtrial", asked.load, Last::Compared { searches })
        }
        // heldtrial reads the number of flows in the place of F
        Some(flows) => {
            let load = Load {
                f: flows,
                ..asked.load
            };
            ("heldtrial", load, Last::Held { flows })
        }
    };
    let about = table::about(&load, last);
    let table = Table::new(&trials.list, &load, last);
    let all = trials.list.len();
    let progress = |at: usize| {
        if asked.progress && at < all {
            eprint!("trial {} of {all}", at + 1);
        }
    };
    let wipe = || {
        if asked.progress {
            // to the line's start, and all of it away
            eprint!("\r\x1b[K");
        }
    };
    let mut outcomes = Vec::new();
    progress(0);
    let ran = running::run(&bin.join(program), &load, &trials.list, |at, outcome| {
        wipe();
        if at == 0 {
            write_out(&format!("{about}\n{}", table.heading()))?;
        }
        write_out(&table.row(at, &trials.list[at], &outcome))?;
        progress(at + 1);
        outcomes.push(outcome);
        Ok(())
    });
    ran.map_err(|fault| {
        wipe();
        Fault::Run(fault)
    })?;
    if let Some((file, plot)) = plot {
        let picture = plot.svg(&trials.list, &outcomes, &about);
        fs::write(file, picture).map_err(|fault| Fault::Run(format!("{file}: {fault}")))?;
    }
    Ok(())
}

fn trials_of(source: &Source) -> Result<Trials, String> {
    let (from, text) = match source {
        Source::Words(line) => {
            // one line, so its number says nothing
            return lines::trials_of(line).map_err(|bad| bad.fault);
        }
        Source::File(file) => (file.as_str(), fs::read(file)),
        Source::Input => ("standard input", input()),
    };
    let text = text.map_err(|fault| format!("{from}: {fault}"))?;
    let text = String::from_utf8(text).map_err(|_| format!("{from}: not text (UTF-8)"))?;
    let trials = lines::trials_of(&text).map_err(|bad| format!("{from}, {bad}"))?;
    if trials.list.is_empty() {
        return Err(format!("{from}: no trial (bin/trials --help)"));
    }
    Ok(trials)
}

fn input() -> io::Result<Vec<u8>> {
    let mut bytes = Vec::new();
    io::stdin().read_to_end(&mut bytes)?;
    Ok(bytes)
}

// Judged before the trials are run.
fn plot_of(file: &str, trials: &Trials) -> Result<Plot, String> {
    let folder = Path::new(file)
        .parent()
        .filter(|folder| folder != &Path::new(""));
    if !folder.unwrap_or_else(|| Path::new(".")).is_dir() {
        return Err(format!("--plot: the folder of {file} is not there"));
    }
    Plot::of(trials).map_err(|fault| format!("--plot: {fault}"))
}

fn output(text: &str) -> Result<(), Fault> {
    write_out(text).map_err(Fault::Run)
}

fn write_out(text: &str) -> Result<(), String> {
    let mut out = io::stdout();
    let written = out.write_all(text.as_bytes()).and_then(|()| out.flush());
    written.map_err(|fault| format!("standard output: {fault}"))
}
