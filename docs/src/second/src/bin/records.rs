//! `records --write FILE`: writes the list of cases on given records and dags.
//! `records --lines FILE`: the lines of the cases of such a file.
//! Both fail where a case that breaks a rule is not refused with 14, or a near one is.

use second::memory::Case;
use second::trials::{self, Trial};
use second::{cases, command, outcome};
use std::io::{self, Write};
use std::process::ExitCode;

fn main() -> ExitCode {
    command::run("records", |words| match *words {
        ["--write", file] => write(file),
        ["--lines", file] => lines(file),
        _ => Err(io::Error::other("usage: records --write FILE | --lines FILE")),
    })
}

fn write(file: &str) -> io::Result<()> {
    let mut bytes = Vec::new();
    for trial in trials::all() {
        let written = trial.case.bytes();
        if Case::read(&written).as_ref() != Some(&trial.case) {
            return Err(io::Error::other(format!("{}: read as another", trial.case.name)));
        }
        held(&trial, &trial.case)?;
        cases::append(&mut bytes, &written);
    }
    std::fs::write(file, bytes)
}

fn lines(file: &str) -> io::Result<()> {
    let bytes = std::fs::read(file)?;
    let stored = command::split(&bytes)?;
    let mut out = io::BufWriter::new(io::stdout().lock());
    let mut trials = trials::all().into_iter();
    for bytes in stored {
        let case = Case::read(bytes).ok_or_else(|| io::Error::other("a case cannot be read"))?;
        if let Some(trial) = trials.next() {
            held(&trial, &case)?;
        }
        out.write_all(outcome::lines(&case).0.as_bytes())?;
    }
    out.flush()
}

/// Whether the case, as read, is refused as the list says.
fn held(trial: &Trial, case: &Case) -> io::Result<()> {
    if trial.agrees(&outcome::lines(case).1) {
        return Ok(());
    }
    Err(io::Error::other(format!("{}: expected {:?}", case.name, trial.expected)))
}
