//! Tables to load: named ones, then some made by chance from a seed, and what `load` says of each.
//!
//! Of an accepted table it says the number of nodes, of any other the number and the entry of the
//! refusal; then the words of the dag.

mod damaged;
mod places;
mod rows;
mod shapes;

use crate::{cases, dag, generator, table, words};

/// What is stored under `crates/tables`, behind the named tables.
pub const SEED: u64 = 1;
pub const COUNT: usize = 200;

/// How many bytes the program of crate `tables` reads.
pub const MOST_BYTES: usize = 65_536;

pub struct Sample {
    pub name: String,
    pub bytes: Vec<u8>,
    /// The first line printed of it: as the paper says, as worked out by hand, or as an earlier
    /// reader, which is gone, said of `shapes::small` and `damaged::short`.
    pub line: String,
}

/// All named tables.
pub fn named() -> Vec<Sample> {
    let mut samples = shapes::shown();
    samples.extend(shapes::small());
    samples.extend(damaged::short());
    samples.extend(shapes::nested());
    samples.extend(shapes::full());
    samples.extend(damaged::limits());
    samples.extend(places::refusals());
    samples
}

/// The bytes of all named tables, and of so many made by chance.
pub fn tables(seed: u64, count: usize) -> Vec<Vec<u8>> {
    let mut tables: Vec<Vec<u8>> = named().into_iter().map(|sample| sample.bytes).collect();
    tables.extend(generator::tables(seed, count));
    tables
}

/// What the program prints for these tables, in this order.
pub fn lines(tables: &[&[u8]]) -> String {
    tables.iter().map(|bytes| load(bytes)).collect()
}

/// Tables one behind the other, each behind its length.
pub fn file<T: AsRef<[u8]>>(tables: &[T]) -> Vec<u8> {
    let mut bytes = Vec::new();
    tables.iter().for_each(|table| cases::append(&mut bytes, table.as_ref()));
    bytes
}

fn load(bytes: &[u8]) -> String {
    let table = match table::read(bytes) {
        Ok(table) => table,
        Err(refusal) => return format!("refused {} {}\n", refusal.number, refusal.entry),
    };
    let dag = dag::build(&table);
    let mut lines = format!("dag {}\n", dag.nodes.len());
    let words = words::write(&dag);
    lines += &line("head", &words[..3 + 2 * dag.definitions.len()]);
    for row in words[words::HEAD..].chunks(words::ROW).take(dag.nodes.len()) {
        lines += &line("node", row);
    }
    lines
}

fn line(first: &str, words: &[u32]) -> String {
    let words: String = words.iter().map(|word| format!(" {word}")).collect();
    format!("{first}{words}\n")
}
