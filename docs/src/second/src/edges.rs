//! Edge cases: inputs at the edges of the paper's sentences and numbers, each with a name.
//!
//! They come first in the stored file, in this order, and are the same for every seed.

mod clock;
mod programs;
mod runs;
mod steps;
mod tables;
mod tails;

use crate::syntax::{append_record, Expr, Param, Program};

pub use programs::{programs, ROOM};
pub use steps::exact_steps;
pub use tables::full_prunes;

pub struct Edge {
    pub name: String,
    pub input: Vec<u8>,
    /// What it prints, as the paper says or as worked out by hand.
    pub lines: String,
}

/// All edge cases.
pub fn edges() -> Vec<Edge> {
    let mut edges = runs::marked();
    edges.extend(tables::unmarked());
    edges.extend(tables::sizes());
    edges.extend(tables::refusals());
    edges.extend(tables::clashes());
    edges.extend(runs::values());
    edges.extend(runs::answers());
    edges.extend(runs::pieces());
    edges.extend(runs::order());
    edges.extend(runs::full());
    edges.extend(clock::clock());
    edges.extend(tails::tails());
    edges.extend(steps::limits());
    edges
}

fn edge(name: impl Into<String>, input: Vec<u8>, lines: impl Into<String>) -> Edge {
    Edge { name: name.into(), input, lines: lines.into() }
}

/// A goal without definitions, and answers or clock moves.
fn goal(goal: Expr, answers: &[(u32, i32)]) -> Vec<u8> {
    with_answers(Program::new(goal), answers)
}

fn with_answers(program: Program, answers: &[(u32, i32)]) -> Vec<u8> {
    let mut bytes = program.bytes();
    for (handle, value) in answers {
        append_record(&mut bytes, *handle, *value);
    }
    bytes
}

/// So many bytes behind an input. From 1 to 7 they are too few for a record.
fn with_piece(mut input: Vec<u8>, length: usize) -> Vec<u8> {
    input.extend((1..=length).map(|byte| byte as u8));
    input
}

fn site(number: u16, params: &[Param]) -> Expr {
    Expr::Site(number, params.to_vec())
}

fn call(definition: u16, params: &[Param]) -> Expr {
    Expr::Call(definition, params.to_vec())
}

/// A fork of all of these, as flat as can be.
fn forks(all: &[Expr]) -> Expr {
    match all {
        [] => Expr::Stop,
        [one] => one.clone(),
        _ => {
            let (left, right) = all.split_at(all.len() / 2);
            crate::syntax::fork(forks(left), forks(right))
        }
    }
}

/// E() = E(), goal E(): one frame, the goal's, and one token that goes on for ever.
fn endless_calls() -> Program {
    Program { definitions: vec![(0, call(0, &[]))], goal: call(0, &[]) }
}

/// E() = E() >x> stop, goal E(): each call keeps a frame; refused 10 after 63 steps.
fn endless_frames() -> Program {
    let body = crate::syntax::sequence(call(0, &[]), Expr::Stop);
    Program { definitions: vec![(0, body)], goal: call(0, &[]) }
}

/// W() = stop <x< W(), goal W(): refused 11 after 97 steps.
fn endless_cells() -> Program {
    let body = crate::syntax::prune(Expr::Stop, call(0, &[]));
    Program { definitions: vec![(0, body)], goal: call(0, &[]) }
}
