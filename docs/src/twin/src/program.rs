//! The program: a job on standard input, its lines on standard output. `--cases FILE`: the lines of each case of a file, as
//! the second program's `--cases` prints them.

use crate::lines::orcrun;
use crate::record::Machine;
use crate::table::{Dag, WORDS};
use std::io::{self, Read, Write};

/// More than a run of 100,000 steps and 8,190 answers can print.
const ROOM: usize = 1 << 23;

/// What a run works on.
struct Runner {
    dag: Box<Dag>,
    machine: Box<Machine>,
    out: Vec<u8>,
}

impl Runner {
    fn new() -> Runner {
        let (dag, machine) = (Box::new([0; WORDS]), Box::new(Machine::BLANK));
        Runner { dag, machine, out: vec![0; ROOM] }
    }

    fn lines(&mut self, input: &[u8]) -> &[u8] {
        let length = orcrun(input, &mut self.dag, &mut self.machine, &mut self.out);
        &self.out[..length]
    }
}

pub fn run() -> io::Result<()> {
    let arguments: Vec<String> = std::env::args().skip(1).collect();
    let mut runner = Runner::new();
    if let [option, file] = &arguments[..] {
        if option == "--cases" {
            return run_cases(&mut runner, &std::fs::read(file)?);
        }
    }
    let mut input = Vec::new();
    io::stdin().take(65_537).read_to_end(&mut input)?;
    io::stdout().write_all(runner.lines(&input))
}

fn run_cases(runner: &mut Runner, mut file: &[u8]) -> io::Result<()> {
    let mut out = io::BufWriter::new(io::stdout().lock());
    let mut number = 0;
    while let Some((length, rest)) = file.split_first_chunk::<4>() {
        let (case, rest) = rest.split_at(u32::from_le_bytes(*length) as usize);
        writeln!(out, "case {number}")?;
        out.write_all(runner.lines(case))?;
        number += 1;
        file = rest;
    }
    out.flush()
}
