//! Each refusal at the first entry where it can stand, in the middle of a table, and at the last.

use super::rows::*;
use super::Sample;
use crate::syntax::{encode, Row};

const MIDDLE: usize = 100;
const LAST: usize = 511;

pub fn refusals() -> Vec<Sample> {
    let mut samples = without_entry();
    samples.extend(at_all_places("kind 9", 0, 3, [0, MIDDLE, LAST], |e| behind(e, &[(9, 0)])));
    samples.extend(at_all_places("site 15", 0, 4, [0, MIDDLE, LAST], |e| behind(e, &[(1, 15)])));
    samples.extend(at_all_places("no right side", 0, 5, [1, MIDDLE, LAST + 1], front));
    samples.extend(at_all_places("two goals", 0, 5, [1, MIDDLE, LAST], two_goals));
    samples.extend(at_all_places("depth 25", 0, 6, [24, MIDDLE, LAST], too_deep));
    samples.extend(at_all_places("not in scope", 0, 7, [1, MIDDLE, LAST], not_in_scope));
    samples.extend(at_all_places("ninth binder", 1, 7, [5, MIDDLE, LAST], ninth_binder));
    samples.extend(at_all_places("missing", 0, 8, [0, MIDDLE, LAST], |e| behind(e, &[(2, 0)])));
    samples
}

/// 1 and 2 are said of the whole table.
fn without_entry() -> Vec<Sample> {
    let cut = encode(32, &filling(MIDDLE))[..503].to_vec();
    let more = [encode(0, &filling(MIDDLE)), vec![0]].concat();
    vec![
        refused_bytes("one byte", vec![0], 1, 0),
        refused_bytes("N = 1, no entry", vec![0, 0, 1, 0], 1, 0),
        refused_bytes("N = 65,535, no entry", vec![0, 0, 255, 255], 1, 0),
        refused_bytes("N = 100, a byte too few", cut, 1, 0),
        refused_bytes("N = 100, a byte too many", more, 1, 0),
        refused("D = 33, N = 1", 33, &[STOP], 2, 0),
        refused("D = 65,535", 65_535, &[STOP], 2, 0),
    ]
}

/// A table with the fault at the first, a middle and the last entry where it can be.
fn at_all_places(
    name: &str,
    definitions: u16,
    number: u8,
    entries: [usize; 3],
    table: impl Fn(usize) -> Rows,
) -> Vec<Sample> {
    let sample = |(place, entry): (&str, usize)| {
        let name = format!("{number} at the {place} place: {name}");
        refused(name, definitions, &table(entry), number, entry)
    };
    ["first", "middle", "last"].into_iter().zip(entries).map(sample).collect()
}

/// A fork and its left side, so many entries in all. What stands behind them is its right side.
fn front(entries: usize) -> Rows {
    match entries {
        1 => vec![(FORK, 0)],
        _ => [vec![(FORK, 0)], filling(entries - 1)].concat(),
    }
}

/// These rows behind so many entries, in place of an expression.
fn behind(entries: usize, rows: &[Row]) -> Rows {
    match entries {
        0 => rows.to_vec(),
        _ => [&front(entries)[..], rows].concat(),
    }
}

fn two_goals(entry: usize) -> Rows {
    [filling(entry), stop()].concat()
}

/// 24 forks, each in the one before: in the left sides, or in the right sides behind a filling.
fn too_deep(entry: usize) -> Rows {
    match entry {
        24 => [vec![(FORK, 0); 24], stop()].concat(),
        _ => {
            let sides = [(FORK, 0), STOP].repeat(22);
            [front(entry - 45), sides, vec![(FORK, 0), STOP]].concat()
        }
    }
}

fn not_in_scope(entry: usize) -> Rows {
    behind(entry - 1, &[(1, LET), variable(0)])
}

/// A fifth prune in the body of a definition of four formals.
fn ninth_binder(entry: usize) -> Rows {
    [define(4, behind(entry - 5, &[(PRUNE, 0); 4])), vec![(PRUNE, 0)]].concat()
}
