//! `generate DIRECTORY [SEED COUNT]`: writes the stored cases, or the edge cases and others from
//! another seed, into a new directory: all inputs to `stdin` and all lines to `stdout`, in the
//! formats of `cases`; each input to `inputs/NUMBER`, its lines to `lines/NUMBER`; a name for each
//! case to `names`. It prints the report, and fails if something that can occur does not.

use second::cases::{self, Case};
use second::report::Report;
use std::fs;
use std::io;
use std::path::Path;
use std::process::ExitCode;

fn main() -> ExitCode {
    let arguments: Vec<String> = std::env::args().skip(1).collect();
    let words: Vec<&str> = arguments.iter().map(String::as_str).collect();
    let (directory, seed, count) = match words[..] {
        [directory] => (directory, Ok(cases::SEED), Ok(cases::COUNT)),
        [directory, seed, count] => (directory, seed.parse(), count.parse()),
        _ => return usage(),
    };
    let (Ok(seed), Ok(count)) = (seed, count) else {
        return usage();
    };
    let made = cases::cases(seed, count);
    if let Err(error) = write(Path::new(directory), &made) {
        eprintln!("generate: {error}");
        return ExitCode::FAILURE;
    }
    let report = Report::of(&made);
    print!("{report}");
    for missing in report.missing() {
        eprintln!("generate: too few: {missing}");
    }
    match report.missing().is_empty() {
        true => ExitCode::SUCCESS,
        false => ExitCode::FAILURE,
    }
}

fn usage() -> ExitCode {
    eprintln!("usage: generate DIRECTORY [SEED COUNT]");
    ExitCode::FAILURE
}

fn write(directory: &Path, made: &[Case]) -> io::Result<()> {
    let (inputs, lines) = (directory.join("inputs"), directory.join("lines"));
    fs::create_dir_all(&inputs)?;
    fs::create_dir_all(&lines)?;
    let mut stdin = Vec::new();
    let mut stdout = String::new();
    let mut names = String::new();
    for (number, case) in made.iter().enumerate() {
        cases::append(&mut stdin, &case.input);
        stdout.push_str(&format!("case {number}\n{}", case.lines));
        names.push_str(&format!("{number} {}\n", case.name));
        fs::write(inputs.join(number.to_string()), &case.input)?;
        fs::write(lines.join(number.to_string()), &case.lines)?;
    }
    fs::write(directory.join("stdin"), stdin)?;
    fs::write(directory.join("stdout"), stdout)?;
    fs::write(directory.join("names"), names)
}
