//! What programs with a file of inputs have in common: the words of their command line, the exit
//! status, and the file taken apart.

use crate::cases;
use std::io;
use std::process::ExitCode;

/// Does what the words ask for; an error is printed behind the program's name.
pub fn run(name: &str, act: impl FnOnce(&[&str]) -> io::Result<()>) -> ExitCode {
    let arguments: Vec<String> = std::env::args().skip(1).collect();
    let words: Vec<&str> = arguments.iter().map(String::as_str).collect();
    match act(&words) {
        Ok(()) => ExitCode::SUCCESS,
        Err(error) => {
            eprintln!("{name}: {error}");
            ExitCode::FAILURE
        }
    }
}

/// The inputs of a file.
pub fn split(file: &[u8]) -> io::Result<Vec<&[u8]>> {
    cases::split(file).ok_or_else(|| io::Error::other("the file is cut short"))
}
