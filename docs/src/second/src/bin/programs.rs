//! `programs DIRECTORY`: for each program over `orcrun` writes what it is run on to
//! `DIRECTORY/NAME/stdin`, and what the second runner prints for it to `DIRECTORY/NAME/stdout`.

use second::edges::programs;
use second::{command, lines};
use std::fs;
use std::io;
use std::path::Path;
use std::process::ExitCode;

fn main() -> ExitCode {
    command::run("programs", |words| match *words {
        [directory] => write(Path::new(directory)),
        _ => Err(io::Error::other("usage: programs DIRECTORY")),
    })
}

fn write(directory: &Path) -> io::Result<()> {
    for program in programs() {
        let folder = directory.join(&program.name);
        fs::create_dir_all(&folder)?;
        fs::write(folder.join("stdin"), &program.input)?;
        fs::write(folder.join("stdout"), lines::orcrun(&program.input))?;
    }
    Ok(())
}
