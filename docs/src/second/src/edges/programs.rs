//! What the programs over `orcrun` are run on, apart from the other edge cases: a run that prints
//! more than the program writes at once, and an input of one byte too many.

use super::steps::{doubled, doubling};
use super::tables::most_answers;
use super::{call, edge, site, Edge};
use crate::syntax::Param::{Const, Var};
use crate::syntax::{fork, give, prune, Program};

/// The program writes so many bytes at once.
pub const ROOM: usize = 262_144;

/// Calls of each F0, and levels above it: 256 times 17 lines are a little more than there is room for.
const CALLS: u32 = 17;
const LEVELS: u16 = 8;

/// Each has the name of its crate.
pub fn programs() -> Vec<Edge> {
    let mut too_long = most_answers();
    too_long.push(0);
    vec![edge("orcrun", two_pieces(), two_pieces_lines()), edge("orcrun_long", too_long, "long\n")]
}

/// F0() = let(x) <x< (call | .. | call | let(0)), goal F8(). Each F0 makes its calls and ends them
/// by its last value. No two lines are the same, as their handles differ.
fn two_pieces() -> Vec<u8> {
    let least = Const(i32::MIN);
    let calls = (0..CALLS).fold(give(Const(0)), |rest, _| fork(site(1023, &[least; 4]), rest));
    let first = prune(give(Var(0)), calls);
    Program { definitions: doubling(first, LEVELS), goal: call(LEVELS, &[]) }.bytes()
}

/// F0 takes its call, where, let (which waits), a fork and a step for each call, let, choke, let,
/// remove and return. Behind F8 there is the publish.
fn two_pieces_lines() -> String {
    let count = CALLS << LEVELS;
    let least = " -2147483648".repeat(4);
    let calls: String = (0..count).map(|handle| format!("call {handle} 1023{least}\n")).collect();
    format!("{calls}publish 0\nend {}\n", doubled(8 + 2 * CALLS, LEVELS) + 1)
}
