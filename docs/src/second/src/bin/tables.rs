//! `tables --write FILE`: writes the tables to load, each behind its length.
//! `tables --lines FILE`: what the program of crate `tables` prints for such a file.
//! `tables --names`: the names of the tables that have one, in the order of the file.

use second::{command, loading};
use std::fs;
use std::io::{self, Write};
use std::process::ExitCode;

const USAGE: &str = "usage: tables --write FILE | --lines FILE | --names";

fn main() -> ExitCode {
    command::run("tables", |words| match *words {
        ["--write", file] => write(file),
        ["--lines", file] => lines(file),
        ["--names"] => names(),
        _ => Err(io::Error::other(USAGE)),
    })
}

fn write(file: &str) -> io::Result<()> {
    let bytes = loading::file(&loading::tables(loading::SEED, loading::COUNT));
    if bytes.len() > loading::MOST_BYTES {
        return Err(io::Error::other(format!("{} bytes are more than are read", bytes.len())));
    }
    fs::write(file, bytes)
}

fn lines(file: &str) -> io::Result<()> {
    let bytes = fs::read(file)?;
    io::stdout().write_all(loading::lines(&command::split(&bytes)?).as_bytes())
}

fn names() -> io::Result<()> {
    let mut out = io::BufWriter::new(io::stdout().lock());
    for sample in loading::named() {
        writeln!(out, "{}", sample.name)?;
    }
    out.flush()
}
