//! Runs at the edges: the paper's marked ones, values, answers, pieces, order, full tables.

use super::steps::{doubled, doubling};
use super::{call, edge, endless_calls, endless_cells, endless_frames, forks, goal, site};
use super::{with_answers, with_piece, Edge};
use crate::syntax::Param::{Const, Var};
use crate::syntax::{encode, fork, give, prune, sequence, signal, Expr, Param, Program};
use std::ops::Range;

const MIN: i32 = i32::MIN;
const MAX: i32 = i32::MAX;

fn add(a: i32, b: i32) -> Expr {
    site(4, &[Const(a), Const(b)])
}

/// The twelve marked runs, in the paper's order.
pub fn marked() -> Vec<Edge> {
    let run =
        |name: &str, expr, lines: &str| edge(format!("marked: {name}"), goal(expr, &[]), lines);
    let one_or_two = || fork(give(Const(1)), give(Const(2)));
    let example = prune(give(Var(0)), fork(site(16, &[Const(5)]), site(17, &[])));
    vec![
        edge(
            "marked: example",
            goal(example, &[(1, 42), (0, 7)]),
            "call 0 16 5\ncall 1 17\npublish 42\nrefused 12\nend 9\n",
        ),
        run("stop", Expr::Stop, "end 1\n"),
        edge("marked: N = 0", vec![0; 4], "table 2 0\n"),
        run("signal()", signal(), "publish 0\nend 2\n"),
        run("stop >x> let(x)", sequence(Expr::Stop, give(Var(0))), "end 1\n"),
        run("let(x) <x< stop", prune(give(Var(0)), Expr::Stop), "end 3\n"),
        run("add(2147483647, 1)", add(MAX, 1), "end 1\n"),
        run("add(2147483646, 1)", add(MAX - 1, 1), "publish 2147483647\nend 2\n"),
        run(
            "(let(1) | let(2)) >x> let(x)",
            sequence(one_or_two(), give(Var(0))),
            "publish 1\npublish 2\nend 11\n",
        ),
        run(
            "let(x) <x< (let(1) | let(2))",
            prune(give(Var(0)), one_or_two()),
            "publish 1\nend 9\n",
        ),
        edge("marked: E() = E()", endless_calls().bytes(), "limit\nend 100000\n"),
        edge("marked: W() = stop <x< W()", endless_cells().bytes(), "refused 11\nend 97\n"),
    ]
}

/// A built-in's value is published in two steps; a silent one ends in the first.
fn gives(name: &str, expr: Expr, value: Option<i32>) -> Edge {
    let lines = match value {
        Some(value) => format!("publish {value}\nend 2\n"),
        None => "end 1\n".to_string(),
    };
    edge(format!("value: {name}"), goal(expr, &[]), lines)
}

/// The ends of signed 32 bits, negative values, and four parameters in their order.
pub fn values() -> Vec<Edge> {
    let two = |number, a, b| site(number, &[Const(a), Const(b)]);
    let one = |number, a| site(number, &[Const(a)]);
    let mut edges = vec![
        gives("let, least", give(Const(MIN)), Some(MIN)),
        gives("let, most", give(Const(MAX)), Some(MAX)),
        gives("let, -1", give(Const(-1)), Some(-1)),
        gives("add, below the least", add(MIN, -1), None),
        gives("add, the least", add(MIN + 1, -1), Some(MIN)),
        gives("add, twice the least", add(MIN, MIN), None),
        gives("add, twice the most", add(MAX, MAX), None),
        gives("add, both ends", add(MIN, MAX), Some(-1)),
        gives("add, -5 and 3", add(-5, 3), Some(-2)),
        gives("less, both ends", two(5, MIN, MAX), Some(1)),
        gives("less, both ends turned", two(5, MAX, MIN), Some(0)),
        gives("less, -1 and 0", two(5, -1, 0), Some(1)),
        gives("less, 0 and -1", two(5, 0, -1), Some(0)),
        gives("less, equal values", two(5, MIN, MIN), Some(0)),
        gives("equal, least", two(6, MIN, MIN), Some(1)),
        gives("equal, both ends", two(6, MIN, MAX), Some(0)),
        gives("equal, -1 and 1", two(6, -1, 1), Some(0)),
        gives("ift, -1", one(1, -1), Some(0)),
        gives("ift, least", one(1, MIN), Some(0)),
        gives("ift, 0", one(1, 0), None),
        gives("iff, 0", one(2, 0), Some(0)),
        gives("iff, -1", one(2, -1), None),
        gives("iff, least", one(2, MIN), None),
    ];
    edges.extend(parameters());
    edges
}

fn parameters() -> Vec<Edge> {
    let ends = [MIN, MAX, -1, 0].map(Const);
    let count = |count: usize| {
        let values: String = (1..=count).map(|value| format!(" -{value}")).collect();
        let params: Vec<Param> = (1..=count).map(|value| Const(-(value as i32))).collect();
        let lines = format!("call 0 16{values}\nend 1\n");
        edge(format!("value: call with {count}"), goal(site(16, &params), &[]), lines)
    };
    // D(a, b, c, d) calls out with its formals in another order.
    let turned = site(1023, &[Var(3), Var(0), Var(2), Var(1)]);
    let passed = Program { definitions: vec![(4, turned)], goal: call(0, &ends) };
    let mut edges: Vec<Edge> = (0..=4).map(count).collect();
    edges.push(edge(
        "value: call of site 1023 with both ends",
        goal(site(1023, &ends), &[(0, MIN)]),
        "call 0 1023 -2147483648 2147483647 -1 0\npublish -2147483648\nend 2\n",
    ));
    // The definition call and the outside call; then return and publish.
    edges.push(edge(
        "value: four formals",
        with_answers(passed, &[(0, MAX)]),
        "call 0 1023 0 -2147483648 -1 2147483647\npublish 2147483647\nend 4\n",
    ));
    edges
}

/// Answers in any order, to handles that are open and to others.
pub fn answers() -> Vec<Edge> {
    let three = || forks(&[16, 17, 18].map(|number| site(number, &[])));
    let calls = "call 0 16\ncall 1 17\ncall 2 18\n";
    let one = |answers: &[(u32, i32)]| goal(site(16, &[]), answers);
    // One more is the handle of clock moves.
    let high = [1 << 8, 1 << 16, 1 << 24, 1 << 31, u32::MAX - 1].map(|handle| (handle, 1));
    vec![
        // Two forks, three calls, three publishes.
        edge(
            "answers: the last call first",
            goal(three(), &[(2, -3), (1, -2), (0, -1)]),
            format!("{calls}publish -3\npublish -2\npublish -1\nend 8\n"),
        ),
        edge(
            "answers: one twice",
            goal(three(), &[(1, 5), (1, 6), (0, 7)]),
            format!("{calls}publish 5\nrefused 12\npublish 7\nend 7\n"),
        ),
        edge("answers: least", one(&[(0, MIN)]), "call 0 16\npublish -2147483648\nend 2\n"),
        edge("answers: most", one(&[(0, MAX)]), "call 0 16\npublish 2147483647\nend 2\n"),
        edge(
            "answers: not called yet",
            one(&[(1, 5), (0, -9)]),
            "call 0 16\nrefused 12\npublish -9\nend 2\n",
        ),
        edge(
            "answers: high bits of a handle",
            one(&[&high[..], &[(0, 1)]].concat()),
            format!("call 0 16\n{}publish 1\nend 2\n", "refused 12\n".repeat(5)),
        ),
        edge("answers: no call at all", goal(Expr::Stop, &[(0, 0)]), "refused 12\nend 1\n"),
        edge(
            "answers: after a refused step",
            with_answers(endless_frames(), &[(0, 0)]),
            "refused 10\nend 63\n",
        ),
        edge("answers: after table", with_piece(encode(0, &[(9, 0)]), 16), "table 3 0\n"),
        // The second call is made only after the first answer.
        edge(
            "answers: to a call that an answer made",
            goal(sequence(site(16, &[]), site(17, &[Var(0)])), &[(0, -8), (1, 9)]),
            "call 0 16\ncall 1 17 -8\npublish 9\nend 5\n",
        ),
    ]
}

/// A piece of 1 to 7 bytes, where its turn comes and where it does not.
pub fn pieces() -> Vec<Edge> {
    let mut edges: Vec<Edge> = (1..=7)
        .map(|length| {
            let input = with_piece(goal(site(16, &[]), &[]), length);
            edge(format!("piece: {length} bytes"), input, "call 0 16\nshort\nend 1\n")
        })
        .collect();
    let answered = goal(site(16, &[]), &[(0, -1)]);
    let kinds = encode(0, &[(9, 0)]);
    let sizes = encode(33, &[(0, 0)]);
    edges.extend([
        edge(
            "piece: behind an answer",
            with_piece(answered, 4),
            "call 0 16\npublish -1\nshort\nend 2\n",
        ),
        edge(
            "piece: after a refused answer",
            with_piece(goal(signal(), &[(0, 0)]), 2),
            "publish 0\nrefused 12\nshort\nend 2\n",
        ),
        edge(
            "piece: after a refused step, 10",
            with_piece(endless_frames().bytes(), 3),
            "refused 10\nend 63\n",
        ),
        edge(
            "piece: after a refused step, 11",
            with_piece(endless_cells().bytes(), 3),
            "refused 11\nend 97\n",
        ),
        edge(
            "piece: after a refused step, behind a record",
            with_piece(with_answers(endless_cells(), &[(0, 1)]), 6),
            "refused 11\nend 97\n",
        ),
        edge("piece: after table 2", with_piece(sizes, 3), "table 2 0\n"),
        edge("piece: after table 3", with_piece(kinds, 5), "table 3 0\n"),
        edge("piece: after table 1", with_piece(vec![0, 0, 9, 0], 7), "table 1 0\n"),
    ]);
    edges
}

/// What the paper says of misreadings, waits and chokes.
pub fn order() -> Vec<Edge> {
    let unset =
        Program { definitions: vec![(1, signal())], goal: prune(call(0, &[Var(0)]), Expr::Stop) };
    // When the choke wakes the left one, the right one stands at its call.
    let woken = fork(prune(site(20, &[Var(0)]), signal()), sequence(signal(), site(21, &[])));
    // The left one waits last: it has a signal in front.
    let late = sequence(signal(), site(20, &[Var(0)]));
    let waiting = fork(late, fork(site(21, &[Var(0)]), site(22, &[Var(0)])));
    // Waits at y, then at x.
    let both = prune(prune(site(20, &[Var(1), Var(0)]), site(16, &[])), site(17, &[]));
    // The inner prune ends with the outer one: its called-out and its waiting token.
    let inner = prune(site(20, &[Var(0)]), site(16, &[]));
    let nested = prune(give(Var(0)), fork(inner, site(17, &[])));
    // D() = site16(): its token and its frame end when the right one gives its value.
    let race = fork(call(0, &[]), sequence(signal(), give(Const(3))));
    let framed = Program { definitions: vec![(0, site(16, &[]))], goal: prune(give(Var(0)), race) };
    // D(a) = add(a, a) is called when x has its value.
    let passes_set = Program {
        definitions: vec![(1, site(4, &[Var(0), Var(0)]))],
        goal: prune(sequence(give(Var(0)), call(0, &[Var(0)])), give(Const(-4))),
    };
    vec![
        // where, call, stop, signal, return, remove, publish.
        edge("order: a call does not wait", unset.bytes(), "publish 0\nend 7\n"),
        // fork, where, signal, wait, signal, assign, choke, and the two calls.
        edge("order: woken to the back", goal(woken, &[]), "call 0 21\ncall 1 20 0\nend 9\n"),
        // where, fork, the call, signal, fork, assign, three waits; choke, three calls.
        edge(
            "order: longest wait first",
            goal(prune(waiting, site(16, &[])), &[(0, 4)]),
            "call 0 16\ncall 1 21 4\ncall 2 22 4\ncall 3 20 4\nend 13\n",
        ),
        // Two wheres, two calls, a wait, two chokes, the call, two removes, publish.
        edge(
            "order: waits once",
            goal(both.clone(), &[(0, 1), (1, 2), (2, 3)]),
            "call 0 17\ncall 1 16\ncall 2 20 2 1\npublish 3\nend 11\n",
        ),
        edge(
            "order: waits twice",
            goal(both, &[(1, 2), (0, 1), (2, 3)]),
            "call 0 17\ncall 1 16\ncall 2 20 2 1\npublish 3\nend 12\n",
        ),
        // where, wait, fork, where, call, wait, call; choke, let, remove, publish.
        edge(
            "order: a choke ends a prune",
            goal(nested.clone(), &[(0, 6), (1, 7)]),
            "call 0 17\ncall 1 16\npublish 6\nrefused 12\nend 11\n",
        ),
        // The inner choke and the call of site 20 come on top.
        edge(
            "order: the inner prune first",
            goal(nested, &[(1, 6), (0, 7)]),
            "call 0 17\ncall 1 16\ncall 2 20 6\npublish 7\nend 13\n",
        ),
        // where, wait, fork, call, signal, outside call, assign, let, remove; choke, let, remove,
        // publish.
        edge(
            "order: a choke ends a frame",
            with_answers(framed, &[(0, 8)]),
            "call 0 16\npublish 3\nrefused 12\nend 13\n",
        ),
        // where, wait, let, choke, let, assign, call, add, return, two removes, publish.
        edge("order: a call passes a set cell", passes_set.bytes(), "publish -8\nend 12\n"),
        late_answers(),
    ]
}

/// F0() = let(x) <x< (site16() | site17()), 32 of them one after the other, so that token and cell
/// places are given again. Of each the second call is answered, and then the first one, too late.
fn late_answers() -> Edge {
    let race = prune(give(Var(0)), fork(site(16, &[]), site(17, &[])));
    let program = Program { definitions: doubling(race, 5), goal: call(5, &[]) };
    let answers: Vec<(u32, i32)> =
        (0..32).flat_map(|turn| [(2 * turn + 1, turn as i32), (2 * turn, -1)]).collect();
    let mut lines = "call 0 16\ncall 1 17\n".to_string();
    for turn in 1..32 {
        lines += &format!("call {} 16\ncall {} 17\nrefused 12\n", 2 * turn, 2 * turn + 1);
    }
    // F0 takes 10 steps with its call, and then there is the publish.
    lines += &format!("publish 31\nrefused 12\nend {}\n", doubled(10, 5) + 1);
    edge("order: late answers, places given again", with_answers(program, &answers), lines)
}

/// Lines of calls under these handles, all with the same rest.
pub fn called(handles: Range<u32>, rest: &str) -> String {
    handles.map(|handle| format!("call {handle} {rest}\n")).collect()
}

fn published(values: impl Iterator<Item = i32>) -> String {
    values.map(|value| format!("publish {value}\n")).collect()
}

/// As many tokens and cells as there are places, and one more.
pub fn full() -> Vec<Edge> {
    let calls = |count| forks(&vec![site(16, &[]); count]);
    let cells = |count| forks(&vec![prune(give(Var(0)), site(17, &[])); count]);
    let turned: Vec<(u32, i32)> = (0..64).map(|handle| (63 - handle, handle as i32)).collect();
    let closed: Vec<(u32, i32)> =
        (0..32).map(|handle| ((handle * 13) % 32, -(handle as i32))).collect();
    // Each answer makes a prune whose cell stays bound in a token that is called out.
    let bound = sequence(calls(40), prune(site(18, &[Var(1)]), signal()));
    let odd: Vec<(u32, i32)> = (0..40).map(|handle| ((handle * 7) % 40, handle as i32)).collect();
    let mut edges = vec![
        // 63 forks, 64 calls, 64 publishes.
        edge(
            "tokens: 64 called out",
            goal(calls(64), &turned),
            format!("{}{}end 191\n", called(0..64, "16"), published(0..64)),
        ),
        // 63 forks and 63 calls; the last place has a fork.
        edge(
            "tokens: a fork for the 65th",
            goal(calls(65), &turned),
            format!("{}refused 10\nend 126\n", called(0..63, "16")),
        ),
        // 31 forks, 32 wheres, waits and calls; for each answer choke, let, remove, publish.
        edge(
            "cells: 32 side by side",
            goal(cells(32), &closed),
            format!("{}{}end 255\n", called(0..32, "17"), published((-31..=0).rev())),
        ),
        // 39 forks, 40 calls; for each of 32 answers assign, where, wait, signal, choke, call; then
        // an assign.
        edge(
            "cells: set and still bound",
            goal(bound, &odd),
            format!("{}{}refused 11\nend 272\n", called(0..40, "16"), called(40..72, "18 0")),
        ),
    ];
    edges.extend(frames());
    edges.extend(tables_full());
    edges
}

/// F(n) = ift(n) >x> add(n, -1) >m> F(m) >y> stop. Each level has five steps: its call, which keeps a
/// frame, ift, assign, add, assign; the last a call and a silent ift.
fn frames() -> Vec<Edge> {
    let run = |count: i32| {
        let again = sequence(call(0, &[Var(2)]), Expr::Stop);
        let less = sequence(site(4, &[Var(0), Const(-1)]), again);
        let body = sequence(site(1, &[Var(0)]), less);
        Program { definitions: vec![(1, body)], goal: call(0, &[Const(count)]) }.bytes()
    };
    vec![
        edge("tokens: 63 frames", run(62), format!("end {}\n", 5 * 62 + 2)),
        edge("tokens: a call for the 65th", run(63), format!("refused 10\nend {}\n", 5 * 63)),
    ]
}

/// Where all else is called out or waits, an answer lets one token go on: to a fork, a prune or a
/// definition call.
fn tables_full() -> Vec<Edge> {
    // How it goes on, and in how many steps it ends.
    let ways = [
        ("a fork", fork(Expr::Stop, Expr::Stop), 3),
        ("a prune", prune(Expr::Stop, Expr::Stop), 3),
        ("a definition call", call(0, &[]), 2),
    ];
    let mut edges = Vec::new();
    for (name, next, steps) in ways {
        let program = |others: usize| {
            let mut all = vec![sequence(site(18, &[]), next.clone())];
            all.extend(vec![site(16, &[]); others]);
            Program { definitions: vec![(0, Expr::Stop)], goal: forks(&all) }
        };
        // 63 forks, 64 calls and the assign.
        edges.push(edge(
            format!("tokens: {name} with 64 in use"),
            with_answers(program(63), &[(0, 5)]),
            format!("call 0 18\n{}refused 10\nend 128\n", called(1..64, "16")),
        ));
        // 62 forks, 63 calls and the assign; then a publish.
        edges.push(edge(
            format!("tokens: {name} with 63 in use"),
            with_answers(program(62), &[(0, 5), (1, 5)]),
            format!("call 0 18\n{}publish 5\nend {}\n", called(1..63, "16"), 127 + steps),
        ));
    }
    // The first of 32 prunes has another one in it.
    let first = sequence(site(18, &[]), prune(give(Var(0)), Expr::Stop));
    let mut all = vec![prune(first, site(17, &[]))];
    all.extend(vec![prune(give(Var(0)), site(17, &[])); 31]);
    // 31 forks, 32 wheres, a call and 31 waits, 32 calls, and the assign.
    edges.push(edge(
        "cells: a prune with 64 tokens and 32 cells in use",
        goal(forks(&all), &[(0, 5)]),
        format!("call 0 18\n{}refused 10\nend 128\n", called(1..33, "17")),
    ));
    edges
}
