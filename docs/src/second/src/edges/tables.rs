//! Tables at the edges: sizes, depth, scope, and each refusal at several entries.

use super::steps::{doubled, doubling};
use super::{call, edge, forks, goal, site, with_answers, Edge};
use crate::lines::MOST_INPUT;
use crate::syntax::{encode, fork, give, prune, sequence, signal, Expr, Param, Program, Row};
use crate::table::{MOST_DEFINITIONS, MOST_ENTRIES};

// Depth, variables, entries.

pub fn unmarked() -> Vec<Edge> {
    let mut edges = depth();
    edges.extend(variables());
    edges.extend(entries());
    edges
}

/// So many expressions around an innermost one.
fn around(count: usize, inner: Expr, one: impl Fn(Expr) -> Expr) -> Expr {
    (0..count).fold(inner, |inner, _| one(inner))
}

fn depth() -> Vec<Edge> {
    let right = |depth: usize, inner| around(depth - 1, inner, |g| fork(Expr::Stop, g));
    let left = |depth: usize| around(depth - 1, Expr::Stop, |f| fork(f, Expr::Stop));
    let first = |depth: usize| around(depth - 1, signal(), |f| sequence(f, give(Param::Const(2))));
    let second = |depth: usize| around(depth - 1, signal(), |g| prune(signal(), g));
    let body = |depth| Program { definitions: vec![(0, left(depth))], goal: call(0, &[]) }.bytes();
    vec![
        edge("depth 24, right sides", goal(right(24, Expr::Stop), &[]), "end 47\n"),
        // The two deepest of 49 entries have depth 25.
        edge("depth 25, right sides", goal(right(25, Expr::Stop), &[]), "table 6 47\n"),
        edge("depth 24, left sides", goal(left(24), &[]), "end 47\n"),
        edge("depth 25, left sides", goal(left(25), &[]), "table 6 24\n"),
        // signal and publish; for each sequence assign, let and remove.
        edge("depth 24, sequences", goal(first(24), &[]), "publish 2\nend 71\n"),
        edge("depth 25, sequences", goal(first(25), &[]), "table 6 24\n"),
        // where, signal, where, remove, signal, where, publish, remove, signal, where; then the
        // choke at the second level ends all that is left.
        edge("depth 24, prunes", goal(second(24), &[]), "publish 0\nend 11\n"),
        edge("depth 25, prunes", goal(second(25), &[]), "table 6 47\n"),
        // The call, 23 forks and 24 stops.
        edge("depth 24, in a body", body(24), "end 48\n"),
        edge("depth 25, in a body", body(25), "table 6 25\n"),
        edge(
            "depth 24, a parameter adds none",
            goal(right(24, give(Param::Const(9))), &[]),
            "publish 9\nend 48\n",
        ),
    ]
}

fn variables() -> Vec<Edge> {
    let last = |count: u32| give(Param::Var(count - 1));
    let sequences =
        |count: u32| around(count as usize, last(count), |g| sequence(give(Param::Const(3)), g));
    let prunes =
        |count: u32| around(count as usize, last(count), |f| prune(f, give(Param::Const(3))));
    let body = |binders: u32| {
        let inner = around(binders as usize, last(4 + binders), |f| prune(f, signal()));
        let definitions = vec![(4, inner)];
        let goal = call(0, &[1, 2, 3, 4].map(Param::Const));
        Program { definitions, goal }.bytes()
    };
    vec![
        // let, assign and remove for each; then the inner let and publish.
        edge("variables 8, sequences", goal(sequences(8), &[]), "publish 3\nend 26\n"),
        edge("variables 9, sequences", goal(sequences(9), &[]), "table 7 24\n"),
        // where, let, choke and remove for each; a wait, the inner let and publish.
        edge("variables 8, prunes", goal(prunes(8), &[]), "publish 3\nend 35\n"),
        edge("variables 9, prunes", goal(prunes(9), &[]), "table 7 8\n"),
        // The call and the return come on top.
        edge("variables 8, four of them formals", body(4), "publish 0\nend 21\n"),
        edge("variables 9, four of them formals", body(5), "table 7 5\n"),
    ]
}

/// So many stops side by side take one entry less than twice as many.
fn stops(count: usize) -> Expr {
    forks(&vec![Expr::Stop; count])
}

fn entries() -> Vec<Edge> {
    let full = fork(stops(128), fork(stops(127), give(Param::Const(1))));
    // 32 definitions of 14 entries, and a goal that fills the table or overfills it by one.
    let body = around(6, signal(), |inner| fork(signal(), inner));
    let definitions = vec![(0, body); MOST_DEFINITIONS];
    let seven = sequence(site(16, &[Param::Const(7)]), call(31, &[]));
    let fills = fork(fork(stops(29), seven), Expr::Stop);
    let overfills = fork(fork(stops(30), give(Param::Const(1))), give(Param::Const(2)));
    let with = |goal| Program { definitions: definitions.clone(), goal };
    assert_eq!(Program::new(full.clone()).rows().len(), MOST_ENTRIES);
    assert_eq!(with(fills.clone()).rows().len(), MOST_ENTRIES);
    assert_eq!(with(overfills.clone()).rows().len(), MOST_ENTRIES + 1);
    vec![
        // By rounds of the queue: 1, 2 and 4 tokens act (7 steps, 7 tokens); 6 fork and one
        // publishes (14 steps, 12 tokens); 12 fork, 24 fork (50 steps, 48 tokens); 16 more fork,
        // and all places are taken.
        edge("entries 512", goal(full, &[]), "publish 1\nrefused 10\nend 66\n"),
        edge("entries 513", goal(fork(stops(128), stops(129)), &[]), "table 2 0\n"),
        // 30 forks, 30 stops and the call; then assign and call, 6 forks, and for each of 7 signals
        // return, remove and publish.
        edge(
            "entries 512, 32 definitions",
            with_answers(with(fills), &[(0, -7)]),
            format!("call 0 16 7\n{}end 97\n", "publish 0\n".repeat(7)),
        ),
        edge("entries 513, 32 definitions", with(overfills).bytes(), "table 2 0\n"),
        // All tokens stand at a where: 32 of them are accepted.
        edge("nodes 1,022", goal(full_prunes(8), &[]), "refused 11\nend 32\n"),
    ]
}

/// Prunes in both sides of prunes. Eight levels make 511 rows and 1,022 nodes, the most there are.
pub fn full_prunes(levels: usize) -> Expr {
    match levels {
        0 => signal(),
        _ => prune(full_prunes(levels - 1), full_prunes(levels - 1)),
    }
}

// Bytes and header.

pub fn sizes() -> Vec<Edge> {
    let stop = |d: u16| encode(d, &[(0, 0)]);
    let filled = |header: &[u8], length: usize| {
        let mut bytes = header.to_vec();
        bytes.resize(length, 0);
        bytes
    };
    let mut too_long = most_answers();
    too_long.push(0);
    vec![
        edge("bytes 0", vec![], "table 1 0\n"),
        edge("bytes 1", vec![0], "table 1 0\n"),
        edge("bytes 2", vec![33, 0], "table 1 0\n"),
        edge("bytes 3", vec![0, 0, 1], "table 1 0\n"),
        edge("bytes 4, N = 1", vec![0, 0, 1, 0], "table 1 0\n"),
        edge("bytes 8, N = 1", filled(&[0, 0, 1], 8), "table 1 0\n"),
        edge("bytes 9, N = 1", filled(&[0, 0, 1], 9), "end 1\n"),
        edge("bytes 65,536", most_answers(), most_answers_lines()),
        edge("bytes 65,537", too_long, "long\n"),
        edge("bytes 65,537, all 0", vec![0; MOST_INPUT + 1], "long\n"),
        edge("N = 65,535, nothing else", vec![0, 0, 255, 255], "table 1 0\n"),
        edge("N = 65,535, 65,536 bytes", filled(&[33, 0, 255, 255], MOST_INPUT), "table 1 0\n"),
        // All these entries are there, and two bytes are left.
        edge("N = 13,106, 65,536 bytes", filled(&[0, 0, 0x32, 0x33], MOST_INPUT), "table 2 0\n"),
        edge("N = 0, with a record", vec![0; 12], "table 2 0\n"),
        edge("D = 33", stop(33), "table 2 0\n"),
        edge("D = 65,535", stop(65_535), "table 2 0\n"),
        // Its low byte is 0.
        edge("D = 256", stop(256), "table 2 0\n"),
        edge("D = 33, cut short", stop(33)[..8].to_vec(), "table 1 0\n"),
        edge("D = 32, no definition", stop(32), "table 3 0\n"),
    ]
}

/// F0() = site16(), goal F13(): 8,192 outside calls, one after the other. The table has 55 entries,
/// so there is room for 8,157 answers, and one byte is left.
pub fn most_answers() -> Vec<u8> {
    let program = Program { definitions: doubling(site(16, &[]), 13), goal: call(13, &[]) };
    let answers: Vec<(u32, i32)> = (0..8157).map(|handle| (handle, handle as i32 - 4000)).collect();
    let mut bytes = with_answers(program, &answers);
    bytes.push(255);
    assert_eq!(bytes.len(), MOST_INPUT);
    bytes
}

/// Behind call 8157 of F13's there are left: its return; and, since 8157 = 8191 - 32 - 2, an assign and
/// a call of F5 and of F1. The last call of a body returns in its place.
fn most_answers_lines() -> String {
    let calls: String = (0..=8157).map(|handle| format!("call {handle} 16\n")).collect();
    let left = 1 + (1 + doubled(3, 5)) + (1 + doubled(3, 1));
    format!("{calls}short\nend {}\n", doubled(3, 13) - left)
}

// Each refusal at several entries.

/// Rows that may stand in place of an expression where nothing is in scope. The row at `at` earns
/// the refusal.
struct Fault {
    name: &'static str,
    rows: Vec<Row>,
    number: u8,
    at: usize,
}

fn fault(number: u8, name: &'static str, rows: &[Row], at: usize) -> Fault {
    Fault { name, rows: rows.to_vec(), number, at }
}

/// Each fault behind so many definitions of two entries, and behind so many times `stop |`.
pub fn refusals() -> Vec<Edge> {
    let mut edges = whole_tables();
    edges.extend(too_deep());
    for fault in kinds().iter().chain(&operands()).chain(&lengths()).chain(&scopes()) {
        for (definitions, levels) in [(0, 0), (0, 1), (1, 0), (5, 3), (2, 7), (32, 21)] {
            let mut rows: Vec<Row> = [(6, 0), (0, 0)].repeat(definitions);
            rows.extend([(3, 0), (0, 0)].repeat(levels));
            let entry = rows.len() + fault.at;
            rows.extend(&fault.rows);
            let name =
                format!("table {} at {entry}, D = {definitions}: {}", fault.number, fault.name);
            let lines = format!("table {} {entry}\n", fault.number);
            edges.push(edge(name, encode(definitions as u16, &rows), lines));
        }
    }
    edges
}

const LET: u32 = 0x0001_0000;
const ADD: u32 = 0x0002_0004;

fn kinds() -> Vec<Fault> {
    vec![
        fault(3, "kind 9", &[(9, 0)], 0),
        fault(3, "kind 255", &[(255, 0)], 0),
        fault(3, "a definition for an expression", &[(6, 0), (0, 0)], 0),
        fault(3, "a variable for an expression", &[(3, 0), (7, 0), (0, 0)], 1),
        fault(3, "a constant for an expression", &[(3, 0), (0, 0), (8, 0)], 2),
        fault(3, "an expression for a parameter", &[(1, ADD), (8, 1), (0, 0)], 2),
        fault(3, "a definition for a parameter", &[(1, LET), (6, 1)], 1),
        fault(3, "kind 9 for a parameter", &[(1, LET), (9, 0)], 1),
    ]
}

fn operands() -> Vec<Fault> {
    vec![
        fault(4, "stop with an operand", &[(0, 1)], 0),
        fault(4, "fork with an operand", &[(3, 0x100), (0, 0), (0, 0)], 0),
        fault(4, "sequence with an operand", &[(4, 0x8000_0000), (0, 0), (0, 0)], 0),
        fault(4, "prune with an operand", &[(5, 0xffff_ffff), (0, 0), (0, 0)], 0),
        fault(4, "site 8", &[(1, 8)], 0),
        fault(4, "site 8 with one", &[(1, 0x0001_0008), (8, 0)], 0),
        fault(4, "site 15", &[(1, 15)], 0),
        fault(4, "site 1024", &[(1, 1024)], 0),
        fault(4, "site 65,535", &[(1, 0xffff)], 0),
        fault(4, "let without a parameter", &[(1, 0)], 0),
        fault(4, "let with two", &[(1, 0x0002_0000), (8, 0), (8, 0)], 0),
        fault(4, "ift with two", &[(1, 0x0002_0001), (8, 0), (8, 0)], 0),
        fault(4, "iff without a parameter", &[(1, 2)], 0),
        fault(4, "signal with one", &[(1, 0x0001_0003), (8, 0)], 0),
        fault(4, "add with one", &[(1, 0x0001_0004), (8, 0)], 0),
        fault(4, "less with three", &[(1, 0x0003_0005), (8, 0), (8, 0), (8, 0)], 0),
        fault(4, "equal without a parameter", &[(1, 6)], 0),
        fault(4, "rwait without a parameter", &[(1, 7)], 0),
        fault(4, "rwait with two", &[(1, 0x0002_0007), (8, 0), (8, 0)], 0),
        fault(4, "outside site with five", &[(1, 0x0005_0010)], 0),
        fault(4, "outside site with 65,535", &[(1, 0xffff_0010)], 0),
        fault(4, "definition call with five", &[(2, 0x0005_0000)], 0),
        fault(4, "missing definition, with five", &[(2, 0x0005_ffff)], 0),
        fault(4, "on the left side", &[(3, 0), (1, 8), (0, 0)], 1),
        fault(4, "on the right side", &[(3, 0), (0, 0), (1, 8)], 2),
    ]
}

fn lengths() -> Vec<Fault> {
    vec![
        fault(5, "fork with one side", &[(3, 0), (0, 0)], 2),
        fault(5, "sequence without a side", &[(4, 0)], 1),
        fault(5, "a parameter missing", &[(1, ADD), (8, 1)], 2),
        fault(5, "two goals", &[(0, 0), (0, 0)], 1),
        fault(5, "a parameter left", &[(1, LET), (8, 1), (8, 1)], 2),
        fault(5, "an unknown kind left", &[(0, 0), (9, 9)], 1),
        fault(5, "left, and a missing definition in front", &[(2, 99), (0, 0)], 1),
    ]
}

fn scopes() -> Vec<Fault> {
    vec![
        fault(7, "no variable in scope", &[(1, LET), (7, 0)], 1),
        fault(7, "variable 4294967295", &[(1, LET), (7, 0xffff_ffff)], 1),
        fault(7, "on the left of a sequence", &[(4, 0), (1, LET), (7, 0), (0, 0)], 2),
        fault(7, "on the right of a prune", &[(5, 0), (0, 0), (1, LET), (7, 0)], 3),
        fault(7, "the next binder's", &[(4, 0), (0, 0), (1, LET), (7, 1)], 3),
        fault(7, "behind its scope", &[(3, 0), (4, 0), (0, 0), (0, 0), (1, LET), (7, 0)], 5),
        fault(8, "definition 40", &[(2, 40)], 0),
        fault(8, "definition 65,535", &[(2, 0xffff)], 0),
        fault(8, "another count", &[(2, LET), (8, 5)], 0),
        fault(8, "the first of two", &[(3, 0), (2, 50), (2, 51)], 1),
    ]
}

/// Depth 25 in the goal, behind so many definitions of two entries.
fn too_deep() -> Vec<Edge> {
    let left: Vec<Row> = [vec![(3, 0); 24], vec![(0, 0); 25]].concat();
    let right: Vec<Row> = [[(3, 0), (0, 0)].repeat(24), vec![(0, 0)]].concat();
    let mut edges = Vec::new();
    for definitions in [0, 1, 2, 5, 32] {
        let bodies: Vec<Row> = [(6, 0), (0, 0)].repeat(definitions);
        for (name, goal, at) in [("left sides", &left, 24), ("right sides", &right, 47)] {
            let entry = bodies.len() + at;
            edges.push(edge(
                format!("table 6 at {entry}, D = {definitions}: {name}"),
                encode(definitions as u16, &[&bodies[..], goal].concat()),
                format!("table 6 {entry}\n"),
            ));
        }
    }
    edges
}

/// Faults that are no expression.
fn whole_tables() -> Vec<Edge> {
    let table = |name: &str, d: u16, rows: &[Row], lines: &str| {
        edge(format!("{}: {name}", lines.trim_end()), encode(d, rows), lines)
    };
    let nine = |kind: u8| -> Vec<Row> {
        let mut rows: Vec<Row> = [(4, 0), (0, 0)].repeat(8);
        rows.extend([(kind, 0), (0, 0), (0, 0)]);
        rows
    };
    vec![
        table("an expression for a definition", 1, &[(0, 0), (0, 0)], "table 3 0\n"),
        table("a goal for the second of two", 2, &[(6, 0), (0, 0), (0, 0)], "table 3 2\n"),
        table("five formals", 1, &[(6, 5), (0, 0), (0, 0)], "table 4 0\n"),
        table("formals 65,536", 2, &[(6, 0), (0, 0), (6, 0x1_0000), (0, 0), (0, 0)], "table 4 2\n"),
        table("no goal", 1, &[(6, 0), (0, 0)], "table 5 2\n"),
        table("no body", 1, &[(6, 0)], "table 5 1\n"),
        table("a ninth binder, sequence", 0, &nine(4), "table 7 16\n"),
        table("a ninth binder, prune", 0, &nine(5), "table 7 16\n"),
        table("formals of the body before", 1, &[(6, 2), (0, 0), (1, LET), (7, 0)], "table 7 3\n"),
        table("a formal too many", 1, &[(6, 2), (1, LET), (7, 2), (0, 0)], "table 7 2\n"),
        table("in a body", 1, &[(6, 1), (2, 0), (0, 0)], "table 8 1\n"),
        table("too few", 1, &[(6, 1), (0, 0), (2, 0)], "table 8 2\n"),
        table("just missing", 2, &[(6, 0), (0, 0), (6, 0), (0, 0), (2, 2)], "table 8 4\n"),
    ]
}

/// Entries that earn several refusals: the order of the tests decides.
pub fn clashes() -> Vec<Edge> {
    // What follows has depth 25, with nothing in scope or with eight variables.
    let plain: Vec<Row> = vec![(3, 0); 24];
    let bound: Vec<Row> = [[(4, 0), (0, 0)].repeat(8), vec![(3, 0); 16]].concat();
    let rows = |front: &[Row], behind: &[Row]| encode(0, &[front, behind].concat());
    vec![
        edge("tests: 5 before 6", rows(&plain, &[]), "table 5 24\n"),
        edge("tests: 3 before 6", rows(&plain, &[(9, 0)]), "table 3 24\n"),
        edge("tests: 3 before 4", rows(&[], &[(6, 9)]), "table 3 0\n"),
        edge("tests: 4 before 6", rows(&plain, &[(0, 1)]), "table 4 24\n"),
        edge("tests: 4 before 7", rows(&bound[..16], &[(4, 1), (0, 0), (0, 0)]), "table 4 16\n"),
        edge("tests: 6 before 7", rows(&bound, &[(5, 0), (0, 0), (0, 0)]), "table 6 32\n"),
        edge("tests: 6 before 8", rows(&plain, &[(2, 0)]), "table 6 24\n"),
        edge("tests: 7 before a leftover", rows(&[], &[(1, LET), (7, 0), (0, 0)]), "table 7 1\n"),
        edge("tests: a leftover before 8", rows(&[], &[(2, 0), (0, 0)]), "table 5 1\n"),
    ]
}
