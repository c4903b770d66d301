//! Runs with the clock: calls of rwait, clock moves and their refusals, who wakes first, deadlines.

use super::runs::called;
use super::steps::{doubled, doubling, exact_steps};
use super::{call, edge, forks, goal, site, with_answers, with_piece, Edge};
use crate::lines::{CLOCK, MOST_STEPS};
use crate::syntax::Param::{Const, Var};
use crate::syntax::{fork, give, prune, rwait, sequence, signal, Expr, Param, Program};

const MIN: i32 = i32::MIN;
const MAX: i32 = i32::MAX;

/// A record that moves the clock to this time.
fn to(time: i32) -> (u32, i32) {
    (CLOCK, time)
}

/// A call of rwait with this constant.
fn late(time: i32) -> Expr {
    rwait(Const(time))
}

/// A call of an outside site at this time.
fn call_at(time: i32, number: u16, params: &[Param]) -> Expr {
    sequence(late(time), site(number, params))
}

fn case(name: &str, expr: Expr, records: &[(u32, i32)], lines: &str) -> Edge {
    edge(format!("clock: {name}"), goal(expr, records), lines)
}

pub fn clock() -> Vec<Edge> {
    let mut edges = calls();
    edges.extend(sums());
    edges.extend(moves());
    edges.extend(refusals());
    edges.extend(order());
    edges.extend(deadlines());
    edges.extend(full());
    edges
}

/// The call, and the publish once the token is due.
fn calls() -> Vec<Edge> {
    let published = "publish 0\nend 2\n";
    vec![
        case("rwait(0)", late(0), &[], published),
        case("rwait(-1)", late(-1), &[to(0), to(5), to(MAX)], "end 1\n"),
        case("rwait of the least", late(MIN), &[to(MAX)], "end 1\n"),
        case("rwait(1), and no move", late(1), &[], "end 1\n"),
        case("rwait(1)", late(1), &[to(1)], published),
        case("rwait of the most", late(MAX), &[to(MAX - 1), (0, 0), to(MAX)], {
            "refused 12\npublish 0\nend 2\n"
        }),
        // fork, rwait, let, then both publish.
        case("rwait(0) beside a let", fork(late(0), give(Const(1))), &[], {
            "publish 0\npublish 1\nend 5\n"
        }),
        // rwait, assign, let, remove, publish.
        case("the value is 0", sequence(late(2), give(Var(0))), &[to(2)], "publish 0\nend 5\n"),
        // where, wait, call; choke, rwait; remove, publish. Its time counts from the second try.
        case(
            "rwait of an unset variable",
            prune(rwait(Var(0)), site(16, &[])),
            &[to(5), (0, 2), to(6), (9, 9), to(7)],
            "call 0 16\nrefused 12\npublish 0\nend 7\n",
        ),
        // D(t) = rwait(t): fork, two calls, two rwaits, two returns, two publishes.
        edge("clock: rwait in a body", in_a_body(), "publish 0\npublish 0\nend 9\n"),
    ]
}

fn in_a_body() -> Vec<u8> {
    let goal = fork(call(0, &[Const(3)]), call(0, &[Const(1)]));
    with_answers(Program { definitions: vec![(1, rwait(Var(0)))], goal }, &[to(3)])
}

/// rwait is called at a time after 0: the outside call, assign and rwait; then remove and publish.
fn sums() -> Vec<Edge> {
    let after = |name: &str, param: Param, records: &[(u32, i32)], lines: &str| {
        case(name, sequence(site(16, &[]), rwait(param)), records, lines)
    };
    let due = "call 0 16\npublish 0\nend 5\n";
    let never = "call 0 16\nend 3\n";
    vec![
        after("a sum of 2147483647", Const(MAX - 1), &[to(1), (0, 9), to(MAX)], due),
        after("a sum of 2147483648", Const(MAX), &[to(1), (0, 9), to(MAX)], never),
        after("a sum of 4294967294", Const(MAX), &[to(MAX), (0, 9), to(MAX)], never),
        after("rwait(0) at the last time", Const(0), &[to(MAX), (0, 9)], due),
        after("rwait(1) at the last time", Const(1), &[to(MAX), (0, 9), to(MAX)], never),
        after("an answer for its time", Var(0), &[to(4), (0, 3), to(6), to(7)], due),
        after("an answer for its time, too early", Var(0), &[to(4), (0, 3), to(6)], never),
        after("an answer of -3 for its time", Var(0), &[to(4), (0, -3), to(6), to(7)], never),
        after("an answer of 0 for its time", Var(0), &[to(4), (0, 0)], due),
    ]
}

/// rwait(5), and a publish where the clock comes to 5.
fn moves() -> Vec<Edge> {
    let five = |name: &str, records: &[(u32, i32)], lines: &str| {
        case(&format!("rwait(5), {name}"), late(5), records, lines)
    };
    let published = "publish 0\nend 2\n";
    vec![
        five("moved to 4", &[to(4)], "end 1\n"),
        five("moved to 5", &[to(5)], published),
        five("moved to 6", &[to(6)], published),
        five("moved to 2147483647", &[to(MAX)], published),
        five("moved to 4 and 5", &[to(4), to(5)], published),
        five("moved to 5 three times", &[to(5), to(5), to(5)], published),
        five("moved to 0, where it is", &[to(0), to(0), to(5)], published),
        case("moved, and nothing due", Expr::Stop, &[to(0), to(7), to(MAX), to(MAX)], "end 1\n"),
        edge(
            "clock: a piece behind a move",
            with_piece(goal(late(1), &[to(1)]), 3),
            "publish 0\nshort\nend 2\n",
        ),
        edge("clock: a piece of a move", piece_of_a_move(), "short\nend 1\n"),
    ]
}

/// The handle and three bytes of the time.
fn piece_of_a_move() -> Vec<u8> {
    let mut input = goal(late(1), &[to(1)]);
    input.pop();
    input
}

/// 15 ends no run, and leaves the clock and who is due.
fn refusals() -> Vec<Edge> {
    let five = |name: &str, records: &[(u32, i32)], lines: &str| {
        case(&format!("15, {name}"), late(5), records, lines)
    };
    let refused = "refused 15\npublish 0\nend 2\n";
    vec![
        five("back by one", &[to(3), to(2), to(5)], refused),
        five("back to 0", &[to(1), to(0), to(5)], refused),
        five("back after it was due", &[to(5), to(4)], "publish 0\nrefused 15\nend 2\n"),
        five("2147483648", &[to(MIN), to(5)], refused),
        five("4294967295", &[to(-1), to(5)], refused),
        five("2147483653, which is 5 but for its sign", &[to(MIN + 5), to(4), (9, 9), to(5)], {
            "refused 15\nrefused 12\npublish 0\nend 2\n"
        }),
        five("back from the last time", &[to(MAX), to(MAX - 1), to(MAX)], {
            "publish 0\nrefused 15\nend 2\n"
        }),
        five("beside 12", &[(CLOCK - 1, 5), to(-5), (0, 5)], {
            "refused 12\nrefused 15\nrefused 12\nend 1\n"
        }),
    ]
}

/// By due time, then by order of call.
fn order() -> Vec<Edge> {
    let calls = |times: &[i32]| {
        let one = |(number, time): (u16, &i32)| call_at(*time, number, &[]);
        forks(&(20..).zip(times).map(one).collect::<Vec<Expr>>())
    };
    // The first of three calls last: it has a signal in front.
    let behind = sequence(signal(), call_at(2, 20, &[]));
    let behind = forks(&[behind, call_at(2, 21, &[]), call_at(2, 22, &[])]);
    let mixed = "call 0 21\ncall 1 23\ncall 2 20\ncall 3 22\nend 15\n";
    // Called at 0 and at 3.
    let twice = |time| fork(call_at(time, 20, &[]), sequence(site(16, &[]), call_at(2, 21, &[])));
    let at_3 = [to(3), (0, 1), to(6)];
    vec![
        // Two forks, three rwaits; three assigns, three calls.
        case("by due time", calls(&[3, 1, 2]), &[to(3)], {
            "call 0 21\ncall 1 22\ncall 2 20\nend 11\n"
        }),
        case("at one time by order of call", behind, &[to(2)], {
            "call 0 21\ncall 1 22\ncall 2 20\nend 13\n"
        }),
        // Three forks, four rwaits; four assigns, four calls.
        case("by due time, then by order of call", calls(&[2, 1, 2, 1]), &[to(5)], mixed),
        case("in two moves", calls(&[2, 1, 2, 1]), &[to(1), to(2)], mixed),
        case("times far apart", calls(&[MAX, 1, 65_536, 256]), &[to(MAX)], {
            "call 0 21\ncall 1 23\ncall 2 22\ncall 3 20\nend 15\n"
        }),
        // fork, rwait, call; assign, rwait; two assigns, two calls.
        case("due at one time, called at two", twice(5), &at_3, {
            "call 0 16\ncall 1 20\ncall 2 21\nend 9\n"
        }),
        case("called later, due sooner", twice(6), &at_3, {
            "call 0 16\ncall 1 21\ncall 2 20\nend 9\n"
        }),
    ]
}

fn deadlines() -> Vec<Edge> {
    let deadline = prune(give(Var(0)), fork(site(16, &[]), late(10)));
    // The inner prune waits for the time.
    let inner = prune(site(16, &[Var(0)]), late(5));
    let nested = prune(give(Var(0)), fork(inner, site(17, &[])));
    vec![
        // where, wait, fork, call, rwait; choke, let, remove, publish.
        case("the deadline first", deadline.clone(), &[to(9), to(10), (0, 42)], {
            "call 0 16\npublish 0\nrefused 12\nend 9\n"
        }),
        case("the answer first", deadline, &[to(9), (0, 42), to(10)], {
            "call 0 16\npublish 42\nend 9\n"
        }),
        // where, wait, fork, where, call, wait, rwait; choke, let, remove, publish.
        case("a choke ends a prune with a deadline", nested.clone(), &[(0, 3), to(5)], {
            "call 0 17\npublish 3\nend 11\n"
        }),
        // The inner choke, the call of site 16 and a remove come on top.
        case("the inner deadline first", nested, &[to(5), (1, 4), (0, 3)], {
            "call 0 17\ncall 1 16 0\npublish 4\nrefused 12\nend 14\n"
        }),
        edge(
            "clock: a deadline over calls that go on",
            calls_go_on(),
            format!("{}publish 0\nrefused 12\nend 19\n", called(0..4, "16")),
        ),
        edge("clock: a loop that is due does not hold others back", beside_a_loop(), {
            "call 0 20\npublish 0\nend 46\n"
        }),
        edge("clock: a retry after a time", retry(), "call 0 16\ncall 1 16\npublish 7\nend 21\n"),
        late_deadlines(),
        at_the_limit(),
    ]
}

/// M() = site16() >x> M(), goal let(x) <x< (M() | rwait(3)): where, wait, fork, a call of M, rwait
/// and a call of site 16; for each of three answers assign, call and call; choke, let, remove,
/// publish.
fn calls_go_on() -> Vec<u8> {
    let body = sequence(site(16, &[]), call(0, &[]));
    let goal = prune(give(Var(0)), fork(call(0, &[]), late(3)));
    let records = [(0, 1), to(1), (1, 1), to(2), (2, 1), to(3), (3, 1)];
    with_answers(Program { definitions: vec![(0, body)], goal }, &records)
}

/// rwait(1) >x> F3() beside a call at 1: fork, two rwaits, two assigns, the call; 38 steps of F3,
/// remove, publish.
fn beside_a_loop() -> Vec<u8> {
    let goal = fork(sequence(late(1), call(3, &[])), call_at(1, 20, &[]));
    with_answers(Program { definitions: doubling(signal(), 3), goal }, &[to(1)])
}

/// R() = site16() >x> (ift(x) >y> let(x) | iff(x) >y> rwait(5) >z> R()). The first answer is 0: R's
/// call, the outside call, assign, fork, silent ift, iff, assign, rwait; assign. Then the same again
/// up to the fork, ift, silent iff, assign, let; two removes, return, publish. The second call keeps
/// no frame.
fn retry() -> Vec<u8> {
    let again = sequence(site(2, &[Var(0)]), sequence(late(5), call(0, &[])));
    let body = sequence(site(16, &[]), fork(sequence(site(1, &[Var(0)]), give(Var(0))), again));
    let program = Program { definitions: vec![(0, body)], goal: call(0, &[]) };
    with_answers(program, &[(0, 0), to(5), (1, 7)])
}

/// F0() = let(x) <x< (site16() | rwait(50)), 32 of them one after the other, so that the places of
/// ended tokens are given again. Each call is answered in time, and no token that was due wakes.
fn late_deadlines() -> Edge {
    let race = prune(give(Var(0)), fork(site(16, &[]), late(50)));
    let program = Program { definitions: doubling(race, 5), goal: call(5, &[]) };
    let turns = (0..32).flat_map(|turn| [to(turn), (turn as u32, turn)]);
    let records: Vec<(u32, i32)> = turns.chain([to(MAX)]).collect();
    // F0 takes 10 steps with its call, and then there is the publish.
    let lines = format!("{}publish 31\nend {}\n", called(0..32, "16"), doubled(10, 5) + 1);
    edge("clock: ended deadlines, places given again", with_answers(program, &records), lines)
}

/// The fork and rwait make two steps of 100,000. One move is refused, the next is accepted, and a
/// piece is left.
fn at_the_limit() -> Edge {
    let mut program = exact_steps(MOST_STEPS - 2);
    program.goal = fork(late(1), program.goal);
    let input = with_piece(with_answers(program, &[to(-1), to(1)]), 3);
    edge("clock: a move at 100,000 steps", input, "publish 0\nrefused 15\nlimit\nend 100000\n")
}

/// As many due tokens as there are places, and one more.
fn full() -> Vec<Edge> {
    let calls = |time: fn(i32) -> i32| {
        let one = |number| call_at(time(number), 20, &[Const(number)]);
        forks(&(0..64).map(one).collect::<Vec<Expr>>())
    };
    let lines = |numbers: &mut dyn Iterator<Item = i32>| -> String {
        let calls =
            numbers.enumerate().map(|(handle, number)| format!("call {handle} 20 {number}\n"));
        // 63 forks, 64 rwaits; 64 assigns, 64 calls.
        calls.chain(["end 255\n".to_string()]).collect()
    };
    let turned = calls(|number| 64 - number);
    let each: Vec<(u32, i32)> = (0..=64).map(to).collect();
    vec![
        case("64 due at one time", calls(|_| 7), &[to(6), to(7)], &lines(&mut (0..64))),
        case("64 due at 64 times", turned.clone(), &[to(64)], &lines(&mut (0..64).rev())),
        case("64 due, moved one by one", turned, &each, &lines(&mut (0..64).rev())),
        // 63 forks and 63 rwaits; the last place has a fork.
        case("a fork beside 63 due", forks(&vec![late(1); 65]), &[to(1)], "refused 10\nend 126\n"),
    ]
}
