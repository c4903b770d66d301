//! Runs of 100,000 steps, and one more or less.

use super::{call, edge, with_answers, with_piece, Edge};
use crate::lines::MOST_STEPS;
use crate::syntax::{fork, give, prune, sequence, signal, Expr, Param, Program};

const LEVELS: u16 = 15;

/// F0() = first, Fk() = F(k-1)() >x> F(k-1)(). The first call keeps a frame, the second is the body's
/// last act and keeps none. With signal() for the first, one token runs under at most k frames and
/// that of its call, for 5 * 2^k - 2 steps: a run may be long without growth.
pub fn doubling(first: Expr, levels: u16) -> Vec<(u32, Expr)> {
    let mut definitions = vec![(0, first)];
    let twice = |level| sequence(call(level, &[]), call(level, &[]));
    definitions.extend((0..levels).map(|level| (0, twice(level))));
    definitions
}

/// What a call of Fk takes, where one of F0 takes so many steps. A call of Fk is that step, a call of
/// F(k-1), the assign, and one of F(k-1) again, which returns in place of Fk.
pub fn doubled(first: u32, level: u16) -> u32 {
    (first + 2 << level) - 2
}

/// The steps of `>x> Fk()`, with its assign and its remove: a call of F0, which is signal(), has 3.
fn part(level: u16) -> u32 {
    1 + doubled(3, level) + 1
}

/// A program that makes exactly so many steps (2, or 4 and more) and publishes once. Behind a first
/// signal() and its publish, the parts are `>x> Fk()`, `>x> signal()` and `stop |`.
pub fn exact_steps(steps: u32) -> Program {
    let mut goal = signal();
    let mut left = steps - 2;
    while left > 0 {
        let fits = |cost: u32| cost <= left && left - cost != 1;
        let level = (0..=LEVELS).rev().find(|level| fits(part(*level)));
        if let Some(level) = level {
            goal = sequence(goal, call(level, &[]));
            left -= part(level);
        } else if fits(3) {
            goal = sequence(goal, signal());
            left -= 3;
        } else {
            goal = fork(Expr::Stop, goal);
            left -= 2;
        }
    }
    Program { definitions: doubling(signal(), LEVELS), goal }
}

pub fn limits() -> Vec<Edge> {
    let mut edges = ends_by_itself();
    edges.extend(pieces());
    edges.extend(answered());
    edges.extend(refused_at());
    edges.extend(others_there());
    edges
}

fn ends_by_itself() -> Vec<Edge> {
    let run = |steps| exact_steps(steps).bytes();
    vec![
        edge("steps: 99,999", run(MOST_STEPS - 1), "publish 0\nend 99999\n"),
        edge("steps: 100,000", run(MOST_STEPS), "publish 0\nend 100000\n"),
        // The publish would be the step too many.
        edge("steps: 100,001", run(MOST_STEPS + 1), "limit\nend 100000\n"),
    ]
}

/// Nothing is read after `limit`. With an empty queue the input is read at any number of steps.
fn pieces() -> Vec<Edge> {
    let run = |steps| exact_steps(steps);
    let all = MOST_STEPS;
    vec![
        edge("piece: after limit", with_piece(run(all + 1).bytes(), 3), "limit\nend 100000\n"),
        edge(
            "piece: after limit, behind a record",
            with_piece(with_answers(run(all + 1), &[(0, 0)]), 7),
            "limit\nend 100000\n",
        ),
        edge(
            "piece: empty queue at 100,000 steps",
            with_piece(run(all).bytes(), 5),
            "publish 0\nshort\nend 100000\n",
        ),
        edge(
            "piece: empty queue at 100,000 steps, after a refused answer",
            with_piece(with_answers(run(all), &[(0, 0)]), 1),
            "publish 0\nrefused 12\nshort\nend 100000\n",
        ),
    ]
}

/// The fork and the outside call make two steps. One record is refused, the next is accepted, and
/// a piece is left.
fn answered() -> Vec<Edge> {
    let run = |steps| {
        let mut program = exact_steps(steps - 2);
        program.goal = fork(Expr::Site(16, vec![]), program.goal);
        with_piece(with_answers(program, &[(1, 5), (0, 6)]), 3)
    };
    let first = "call 0 16\npublish 0\nrefused 12\n";
    vec![
        edge(
            "steps: an answer at 99,999",
            run(MOST_STEPS - 1),
            format!("{first}publish 6\nshort\nend 100000\n"),
        ),
        edge("steps: an answer at 100,000", run(MOST_STEPS), format!("{first}limit\nend 100000\n")),
    ]
}

/// Behind the last value but one: E() = E() >x> stop, which makes 63 steps. The next would be refused,
/// but `limit` comes first.
fn refused_at() -> Vec<Edge> {
    let run = |steps| {
        // In place of its publish there is the assign.
        let mut program = exact_steps(steps - 63);
        let endless = program.definitions.len() as u16;
        program.definitions.push((0, sequence(call(endless, &[]), Expr::Stop)));
        program.goal = sequence(program.goal, call(endless, &[]));
        program.bytes()
    };
    vec![
        edge("steps: 99,999, then refused", run(MOST_STEPS - 1), "refused 10\nend 99999\n"),
        edge("steps: 100,000, not refused", run(MOST_STEPS), "limit\nend 100000\n"),
    ]
}

/// At the limit a token waits, a second one is ready, or one is called out.
fn others_there() -> Vec<Edge> {
    let run = |goal| Program { definitions: doubling(signal(), LEVELS), goal };
    let deep = |level| call(level, &[]);
    let waits = prune(give(Param::Var(0)), deep(LEVELS));
    let called = fork(Expr::Site(16, vec![]), deep(LEVELS));
    vec![
        edge("limit: a token waits", run(waits).bytes(), "limit\nend 100000\n"),
        edge("limit: two are ready", run(fork(deep(14), deep(14))).bytes(), "limit\nend 100000\n"),
        edge(
            "limit: one is called out",
            with_answers(run(called), &[(0, 1)]),
            "call 0 16\nlimit\nend 100000\n",
        ),
    ]
}
