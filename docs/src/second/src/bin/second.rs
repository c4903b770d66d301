//! `second`: standard input to orcrun's lines.
//! `second --cases FILE`: the lines of each case of a file, after a line `case` and its number.

use second::{command, lines};
use std::io::{self, Read, Write};
use std::process::ExitCode;

fn main() -> ExitCode {
    command::run("second", |words| match *words {
        [] => run_standard_input(),
        ["--cases", file] => run_cases(file),
        _ => Err(io::Error::other("usage: second [--cases FILE]")),
    })
}

fn run_standard_input() -> io::Result<()> {
    let mut input = Vec::new();
    // One byte more than allowed is enough to see that the input is too long.
    io::stdin().take(lines::MOST_INPUT as u64 + 1).read_to_end(&mut input)?;
    io::stdout().write_all(lines::orcrun(&input).as_bytes())
}

fn run_cases(file: &str) -> io::Result<()> {
    let mut out = io::BufWriter::new(io::stdout().lock());
    for (number, case) in command::split(&std::fs::read(file)?)?.iter().enumerate() {
        write!(out, "case {number}\n{}", lines::orcrun(case))?;
    }
    out.flush()
}
