//! Entries of tables, good or not, put together piece by piece.

use super::Sample;
use crate::syntax::{encode, Row};

pub type Rows = Vec<Row>;

pub const STOP: Row = (0, 0);
pub const LET: u32 = 0x0001_0000;
pub const ADD: u32 = 0x0002_0004;

pub const FORK: u8 = 3;
pub const SEQUENCE: u8 = 4;
pub const PRUNE: u8 = 5;

pub fn accepted(name: impl Into<String>, d: u16, rows: &[Row], nodes: usize) -> Sample {
    Sample { name: name.into(), bytes: encode(d, rows), line: format!("dag {nodes}\n") }
}

pub fn refused(name: impl Into<String>, d: u16, rows: &[Row], number: u8, entry: usize) -> Sample {
    refused_bytes(name, encode(d, rows), number, entry)
}

pub fn refused_bytes(name: impl Into<String>, bytes: Vec<u8>, number: u8, entry: usize) -> Sample {
    Sample { name: name.into(), bytes, line: format!("refused {number} {entry}\n") }
}

pub fn stop() -> Rows {
    vec![STOP]
}

pub fn variable(number: u32) -> Row {
    (7, number)
}

pub fn constant(value: i32) -> Row {
    (8, value as u32)
}

pub fn site(number: u32, parameters: &[Row]) -> Rows {
    entry(1, number, parameters)
}

pub fn call(definition: u32, parameters: &[Row]) -> Rows {
    entry(2, definition, parameters)
}

fn entry(kind: u8, number: u32, parameters: &[Row]) -> Rows {
    [&[(kind, number | (parameters.len() as u32) << 16)], parameters].concat()
}

/// let(x) for the variable of this number.
pub fn give(number: u32) -> Rows {
    site(0, &[variable(number)])
}

pub fn signal() -> Rows {
    site(3, &[])
}

pub fn join(kind: u8, f: Rows, g: Rows) -> Rows {
    [vec![(kind, 0)], f, g].concat()
}

pub fn fork(f: Rows, g: Rows) -> Rows {
    join(FORK, f, g)
}

pub fn sequence(f: Rows, g: Rows) -> Rows {
    join(SEQUENCE, f, g)
}

pub fn prune(f: Rows, g: Rows) -> Rows {
    join(PRUNE, f, g)
}

pub fn define(formals: u32, body: Rows) -> Rows {
    [vec![(6, formals)], body].concat()
}

/// So many joins down the right sides, with stop on the left; the innermost right side is given.
pub fn right_sides(kind: u8, count: usize, inner: Rows) -> Rows {
    (0..count).fold(inner, |g, _| join(kind, stop(), g))
}

/// So many stops, joined as evenly as can be; they take one entry less than twice as many.
pub fn even(kind: u8, count: usize) -> Rows {
    match count {
        1 => stop(),
        _ => join(kind, even(kind, count / 2), even(kind, count - count / 2)),
    }
}

/// An expression of exactly so many entries, and of little depth.
pub fn filling(entries: usize) -> Rows {
    match entries {
        2 => site(0, &[constant(1)]),
        _ if entries % 2 == 1 => even(FORK, entries / 2 + 1),
        _ => fork(even(FORK, entries / 2 - 1), filling(2)),
    }
}
