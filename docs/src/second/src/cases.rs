//! The stored cases: all edge cases, then so many made by chance from a seed.
//!
//! Many inputs stand in one file: for each its length in 4 bytes, little-endian, and its bytes. The
//! lines of all of them stand in another: for each a line `case` with its number, then its lines.

use crate::{edges, generator, lines};

/// What is stored under `crates/cases`.
pub const SEED: u64 = 1;
pub const COUNT: usize = 5000;

pub struct Case {
    pub name: String,
    pub input: Vec<u8>,
    pub lines: String,
}

pub fn cases(seed: u64, count: usize) -> Vec<Case> {
    let edges = edges::edges().into_iter().map(|edge| (edge.name, edge.input));
    let made = generator::cases(seed, count).into_iter().enumerate();
    let made = made.map(|(number, input)| (format!("seed {seed}, input {number}"), input));
    let run = |(name, input): (String, Vec<u8>)| Case { name, lines: lines::orcrun(&input), input };
    edges.chain(made).map(run).collect()
}

pub fn append(file: &mut Vec<u8>, input: &[u8]) {
    file.extend((input.len() as u32).to_le_bytes());
    file.extend(input);
}

/// The inputs of a file, or `None` if it is cut short.
pub fn split(mut file: &[u8]) -> Option<Vec<&[u8]>> {
    let mut inputs = Vec::new();
    while !file.is_empty() {
        let (length, rest) = file.split_first_chunk::<4>()?;
        let (input, rest) = rest.split_at_checked(u32::from_le_bytes(*length) as usize)?;
        inputs.push(input);
        file = rest;
    }
    Some(inputs)
}
