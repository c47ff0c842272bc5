//! usage: wrong-programs [--jobs N] [--folder NAME].. [--judge LOG] [CRATE..]     at the repository's root
//!
//! Tries the wrong programs of the crates, or of all crates: each file crates/CRATE/wrong/*.edit (or of the folders named) makes the crate wrong, and
//! the prover must refuse it at a fact. `rt ci` tries them, in a copy of the crates that has them for its must-fail edits; what it has proved
//! or tried before, of the same files, it does not prove or try again. An edit may change crates below its own too: `rt ci` runs in a copy of its
//! own, where these and those between must all be proved with it, and its own be refused. One line for each edit; the last line is
//! 'N passed, M failed'. With --judge, what `rt ci` has tried itself, by the log that it left, is held to the same: refused at a fact. What is
//! said stands in target/wrong-programs; copies stand in TMPDIR meanwhile.

mod crates;
mod edit;
mod folder;
mod prover;
mod run;
mod verdict;

use run::{Run, Tally};
use std::io;
use std::path::PathBuf;
use std::process::ExitCode;

struct Asked {
    jobs: usize,
    folders: Vec<String>,
    judge: Option<PathBuf>,
    crates: Vec<String>,
}

fn asked(mut words: impl Iterator<Item = String>) -> Result<Asked, String> {
    let cores = std::thread::available_parallelism().map_or(1, |n| n.get());
    let mut asked = Asked { jobs: cores, folders: Vec::new(), judge: None, crates: Vec::new() };
    while let Some(word) = words.next() {
        let mut value = || words.next().ok_or_else(|| format!("{word} wants a word behind it"));
        match word.as_str() {
            "--jobs" => asked.jobs = value()?.parse().map_err(|_| "--jobs wants a number".to_string())?,
            "--folder" => asked.folders.push(value()?),
            "--judge" => asked.judge = Some(PathBuf::from(value()?)),
            _ if word.starts_with('-') => return Err(format!("no such option: {word}")),
            _ => asked.crates.push(word),
        }
    }
    if asked.folders.is_empty() {
        asked.folders.push("wrong".to_string());
    }
    asked.jobs = asked.jobs.max(1);
    Ok(asked)
}

fn tally() -> io::Result<Tally> {
    let asked = asked(std::env::args().skip(1)).map_err(|why| io::Error::new(io::ErrorKind::InvalidInput, why))?;
    let run = Run::new(std::env::current_dir()?, asked.folders)?;
    if let Some(tried) = asked.judge {
        run.judge(&tried)?;
    }
    run.go(&asked.crates, asked.jobs)
}

fn main() -> ExitCode {
    match tally() {
        Ok(tally) => {
            println!("{} passed, {} failed", tally.passed, tally.failed);
            ExitCode::from(u8::from(tally.failed > 0))
        }
        Err(why) => {
            eprintln!("wrong-programs: {why}");
            ExitCode::from(2)
        }
    }
}
