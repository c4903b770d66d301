//! Lawful calls: every instruction, answers, starts, and the refusals 9 to 13 with what comes nearest.

use super::*;
use crate::syntax::{fork, give, prune, sequence, signal, Expr, Param, Program};
use crate::{dag, table};
use Binding::{Cell, Value};
use Call::{Answer, Start, Step};

pub fn list() -> Vec<Trial> {
    let steps = [moving(), built_ins(), outside_calls(), waiting(), definitions(), chokes()];
    let rest = [places(), answers(), refusals(), odd_records(), runs()];
    steps.into_iter().chain(rest).flatten().collect()
}

/// The record that the broken ones change, changed in another way.
fn on_middle(name: &str, calls: &[Call], edit: Edit) -> Trial {
    trial(Expected::Near, name, edited(middle(), edit), calls)
}

pub(super) fn alone(name: &str, calls: &[Call], nodes: &[Node], edit: Edit) -> Trial {
    trial(Expected::Near, name, edited(one_token(nodes), edit), calls)
}

/// One ready token with a value at the first of these nodes; a definition of one formal begins at
/// the last.
pub(super) fn one_token(nodes: &[Node]) -> Draft {
    let definitions = vec![Definition { first: nodes.len() - 1, formals: 1 }];
    let dag = Dag { nodes: nodes.to_vec(), definitions, goal: 0 };
    let mut draft = Draft { words: words::write(&dag), ..Draft::blank() };
    *draft.token(0) = Token { value: Some(9), state: State::Ready, ..Token::BLANK };
    draft.queue_is(&[0]);
    draft
}

fn moving() -> Vec<Trial> {
    let assign = Node::Assign { variable: 3, next: 1 };
    let remove = Node::Remove { variable: 3, next: 1 };
    let where_ = Node::Where { variable: 3, left: 1, right: 2 };
    let fork = Node::Fork { left: 1, right: 2 };
    let three = |node: Node| [node, Node::Stop, Node::Stop];
    vec![
        alone("stop", &[Step(0)], &[Node::Stop], |_| {}),
        alone("publish", &[Step(0)], &[Node::Publish], |_| {}),
        alone("publish of the smallest value", &[Step(0)], &[Node::Publish], |g| {
            g.token(0).value = Some(i32::MIN)
        }),
        alone("assign", &[Step(0)], &three(assign.clone()), |_| {}),
        alone("assign where a cell was bound", &[Step(0)], &three(assign), |g| {
            g.bind(0, 3, Cell(2));
            g.set_cell(2, 6);
        }),
        alone("remove", &[Step(0)], &three(remove.clone()), |g| g.bind(0, 3, Value(6))),
        alone("remove of a cell, which is blank after it", &[Step(0)], &three(remove), |g| {
            g.bind(0, 3, Cell(2));
            g.set_cell(2, 6);
        }),
        alone("fork", &[Step(0)], &three(fork.clone()), |_| {}),
        alone("fork copies all that it does not name", &[Step(0)], &three(fork), |g| {
            (g.token(0).cell, g.token(0).caller) = (Some(4), Some(9));
            (g.token(9).state, g.token(9).value) = (State::Frame, Some(-3));
            g.bind(0, 0, Value(5));
        }),
        alone("where", &[Step(0)], &three(where_.clone()), |_| {}),
        alone("where under a cell", &[Step(0)], &three(where_), |g| {
            (g.token(0).cell, g.token(0).caller) = (Some(0), Some(9));
            g.token(9).state = State::Frame;
            g.bind(0, 3, Value(5));
        }),
        on_middle("a step that takes the middle of the queue", &[Step(1)], |g| {
            g.ready_too(4);
            g.ready_too(5);
            g.token(4).node = STOP;
        }),
        on_middle("a step that takes the end of the queue", &[Step(2)], |g| {
            g.ready_too(4);
            g.ready_too(5);
            (g.token(5).node, g.token(5).value) = (ASSIGN, Some(4));
        }),
    ]
}

/// A call of a built-in that leads to publish, and the step after it.
fn built_in(name: &str, number: u32, parameters: &[i32]) -> Trial {
    let parameters: Vec<Parameter> = parameters.iter().map(|value| constant(*value)).collect();
    alone(name, &[Step(0), Step(0)], &[site(number, &parameters, 1), Node::Publish], |_| {})
}

fn built_ins() -> Vec<Trial> {
    vec![
        built_in("let", 0, &[-7]),
        built_in("ift of 0 is silent", 1, &[0]),
        built_in("ift of -1", 1, &[-1]),
        built_in("iff of 0", 2, &[0]),
        built_in("iff of 1 is silent", 2, &[1]),
        built_in("signal", 3, &[]),
        built_in("add", 4, &[2, -3]),
        built_in("add up to the largest", 4, &[i32::MAX - 1, 1]),
        built_in("add beyond the largest is silent", 4, &[i32::MAX, 1]),
        built_in("add down to the smallest", 4, &[i32::MIN + 1, -1]),
        built_in("add below the smallest is silent", 4, &[i32::MIN, -1]),
        built_in("add of the smallest and the largest", 4, &[i32::MIN, i32::MAX]),
        built_in("less, being less", 5, &[-2, 1]),
        built_in("less, being equal", 5, &[1, 1]),
        built_in("less, being more", 5, &[i32::MAX, i32::MIN]),
        built_in("equal, being equal", 6, &[-4, -4]),
        built_in("equal, being another", 6, &[4, -4]),
    ]
}

fn outside_calls() -> Vec<Trial> {
    let mut list = Vec::new();
    for count in 0..=4usize {
        let parameters: Vec<Parameter> =
            (0..count).map(|number| constant(-(number as i32) - 1)).collect();
        let name = format!("an outside call with {count} values");
        let nodes = [site(1023, &parameters, 1), Node::Publish];
        list.push(alone(&name, &[Step(0), Answer(0, -5), Step(0)], &nodes, |_| {}));
    }
    let mixed = [variable(1), constant(4), variable(2)];
    let nodes = [site(16, &mixed, 1), Node::Publish];
    list.push(alone(
        "an outside call of a value, a constant and a set cell",
        &[Step(0)],
        &nodes,
        {
            |g| {
                g.bind(0, 1, Value(11));
                g.bind(0, 2, Cell(8));
                g.set_cell(8, 12);
                g.record.calls = 41;
            }
        },
    ));
    list
}

fn waiting() -> Vec<Trial> {
    let two = [site(4, &[variable(1), variable(2)], 1), Node::Publish];
    vec![
        alone("waits at the first of two unset cells", &[Step(0)], &two, |g| {
            g.bind(0, 1, Cell(3));
            g.bind(0, 2, Cell(2));
        }),
        alone("waits at the second where the first is set", &[Step(0)], &two, |g| {
            g.bind(0, 1, Cell(3));
            g.bind(0, 2, Cell(2));
            g.set_cell(3, 1);
        }),
        alone("goes on where both are set", &[Step(0)], &two, |g| {
            g.bind(0, 1, Cell(3));
            g.bind(0, 2, Cell(2));
            g.set_cell(3, 1);
            g.set_cell(2, 1);
        }),
        on_middle("waits behind those that wait", &[Step(0)], |g| g.token(3).node = LET),
    ]
}

fn definitions() -> Vec<Trial> {
    let call = |parameters: &[Parameter]| {
        [
            Node::DefinitionCall { definition: 0, parameters: parameters.to_vec(), next: 1 },
            Node::Publish,
            Node::Return,
        ]
    };
    vec![
        alone("a definition call", &[Step(0)], &call(&[constant(-1)]), |_| {}),
        alone("a definition call of an unset cell", &[Step(0)], &call(&[variable(7)]), |g| {
            g.bind(0, 7, Cell(30));
            g.bind(0, 1, Value(3));
            (g.token(0).cell, g.token(0).value) = (Some(12), None);
        }),
        alone("a definition call of a set cell", &[Step(0)], &call(&[variable(7)]), |g| {
            g.bind(0, 7, Cell(30));
            g.set_cell(30, 5);
        }),
        alone(
            "a definition call with four, the definition having one formal",
            &[Step(0)],
            &call(&[constant(1), constant(2), constant(3), variable(0)]),
            |g| g.bind(0, 0, Value(6)),
        ),
        alone(
            "a definition call with none, the definition having one formal",
            &[Step(0)],
            &call(&[]),
            |_| {},
        ),
        on_middle("return leaves the frame, which others name", &[Step(0), Step(0)], |g| {
            g.stands_at(RETURN, Some(-9));
            g.bind(3, 5, Value(1));
            g.token(0).value = Some(77);
        }),
        on_middle("a token that ends while another names it as its caller", &[Step(0)], |g| {
            g.stands_at(STOP, None);
            g.token(2).caller = Some(3);
        }),
        on_middle("return of the last one blanks the frame", &[Step(0)], |g| {
            g.stands_at(RETURN, Some(4));
            *g.token(2) = Token::BLANK;
            g.waits_are(&[]);
        }),
    ]
}

/// Token 3 chokes cell 0, in which token 1 is called out; token 2 and others wait.
pub(super) fn choking(g: &mut Draft) {
    g.stands_at(CHOKE, Some(6));
    g.token(3).cell = Some(0);
}

fn chokes() -> Vec<Trial> {
    vec![
        on_middle("choke sets, ends and wakes", &[Step(0), Step(0), Step(0)], choking),
        on_middle("choke wakes the longest wait first, behind the queue", &[Step(1)], |g| {
            choking(g);
            for place in [4, 5] {
                *g.token(place) = g.record.tokens[2];
            }
            g.waits_are(&[5, 2, 4]);
            g.ready_too(9);
            (g.token(9).node, g.token(9).cell) = (STOP, None);
            g.queue_is(&[9, 3]);
        }),
        on_middle("choke leaves those that wait at another cell", &[Step(0)], |g| {
            choking(g);
            *g.token(4) = g.record.tokens[2];
            g.bind(4, 0, Cell(7));
            g.token(4).state = State::Waiting(7);
            g.waits_are(&[4, 2]);
        }),
        on_middle("choke ends tokens of every state under its descendants", &[Step(0)], |g| {
            choking(g);
            g.parent(1, 0);
            g.parent(2, 1);
            for (place, state) in [(4, State::Ready), (5, State::CalledOut(1)), (6, State::Frame)] {
                *g.token(place) = Token { node: STOP, state, cell: Some(2), ..Token::BLANK };
            }
            *g.token(7) = Token { cell: Some(1), caller: Some(6), ..g.record.tokens[2] };
            g.record.calls = 2;
            g.queue_is(&[3, 4]);
            g.waits_are(&[7, 2]);
        }),
        on_middle("choke of a cell under another leaves what is above", &[Step(0)], |g| {
            choking(g);
            g.parent(0, 8);
            *g.token(4) = Token { node: STOP, state: State::Ready, cell: Some(8), ..Token::BLANK };
            g.queue_is(&[3, 4]);
        }),
        on_middle("choke of a cell that nothing names any more", &[Step(0)], |g| {
            choking(g);
            for place in [0, 2] {
                *g.token(place) = Token::BLANK;
            }
            g.token(3).caller = None;
            g.waits_are(&[]);
        }),
    ]
}

/// Every place from 0 on holds a ready token at the node, as many as said.
pub(super) fn crowd(g: &mut Draft, count: u8, node: usize) {
    let one = Token { node, value: Some(1), state: State::Ready, ..Token::BLANK };
    g.record.tokens[..count as usize].fill(one);
    g.waits_are(&[]);
    g.queue_is(&(0..count).collect::<Vec<u8>>());
}

/// The first so many cells are in use, by one chain from the token of the case.
fn chain(g: &mut Draft, count: usize) {
    g.token(3).cell = Some(0);
    (1..count).for_each(|cell| g.parent(cell - 1, cell));
}

fn places() -> Vec<Trial> {
    vec![
        on_middle("a new token goes round from 63 to the first free place", &[Step(0)], |g| {
            g.stands_at(FORK, None);
            g.record.last_token = 63;
        }),
        on_middle("a new token takes 63", &[Step(0)], |g| {
            g.stands_at(FORK, None);
            g.record.last_token = 62;
        }),
        on_middle("a new token passes places in use", &[Step(0)], |g| {
            g.stands_at(FORK, None);
            g.record.last_token = 0;
        }),
        on_middle("a new token takes the only free place, just before the last", &[Step(0)], |g| {
            crowd(g, 64, FORK);
            *g.token(20) = Token::BLANK;
            g.queue_is(&(0..64).filter(|place| *place != 20).collect::<Vec<u8>>());
            g.record.last_token = 21;
            *g.token(1) = Token { state: State::CalledOut(0), ..g.record.tokens[1] };
            g.queue_is(&(0..64).filter(|place| ![1, 20].contains(place)).collect::<Vec<u8>>());
        }),
        on_middle("a new cell goes round from 31 to the first free place", &[Step(0)], |g| {
            g.stands_at(WHERE, None);
            g.record.last_cell = 31;
        }),
        on_middle("a new cell takes 31", &[Step(0)], |g| {
            g.stands_at(WHERE, None);
            g.record.last_cell = 30;
        }),
        on_middle("a new cell passes cells in use, set or unset", &[Step(0)], |g| {
            g.stands_at(WHERE, None);
            g.bind(3, 1, Cell(1));
            g.bind(3, 2, Cell(2));
            g.set_cell(1, 4);
        }),
    ]
}

fn answers() -> Vec<Trial> {
    let two = |g: &mut Draft| {
        *g.token(5) = Token { node: PUBLISH, state: State::CalledOut(1), ..Token::BLANK };
        g.record.calls = 2;
    };
    vec![
        on_middle("an answer", &[Answer(0, i32::MIN)], |_| {}),
        trial(Expected::Near, "answers in another order", edited(middle(), two), {
            &[Answer(1, 8), Answer(0, 9), Step(1), Step(0)]
        }),
        on_middle("one handle answered twice", &[Answer(0, 1), Answer(0, 2)], |_| {}),
        on_middle("an answer to a call that was pruned", &[Step(0), Answer(0, 3)], choking),
        on_middle("an answer while the queue is empty", &[Answer(0, 1)], |g| {
            *g.token(3) = Token::BLANK;
            g.queue_is(&[]);
        }),
        on_middle("an answer to handle 999999", &[Answer(999_999, 1)], |g| {
            g.token(1).state = State::CalledOut(999_999);
            g.record.calls = 1_000_000;
        }),
    ]
}

fn refusals() -> Vec<Trial> {
    let call = Node::DefinitionCall { definition: 0, parameters: vec![constant(1)], next: STOP };
    let mut list = vec![
        on_middle("9: a place behind the queue", &[Step(1), Step(64), Step(u32::MAX)], |_| {}),
        on_middle("9: an empty queue", &[Step(0)], |g| {
            *g.token(3) = Token::BLANK;
            g.queue_is(&[]);
        }),
        on_middle("10: fork with 64 in use", &[Step(63)], |g| crowd(g, 64, FORK)),
        on_middle("not 10: fork with 63 in use", &[Step(62)], |g| crowd(g, 63, FORK)),
        on_middle("10: where with 64 in use", &[Step(5)], |g| crowd(g, 64, WHERE)),
        on_middle("not 10: where with 63 in use", &[Step(5)], |g| crowd(g, 63, WHERE)),
        on_middle("not 10: publish with 64 in use", &[Step(5)], |g| crowd(g, 64, PUBLISH)),
        on_middle("11: where with 32 cells in use", &[Step(0)], |g| {
            g.stands_at(WHERE, None);
            chain(g, 32);
        }),
        on_middle("not 11: where with 31 cells in use", &[Step(0)], |g| {
            g.stands_at(WHERE, None);
            chain(g, 31);
        }),
        on_middle("not 11: fork with 32 cells in use", &[Step(0)], |g| {
            g.stands_at(FORK, None);
            chain(g, 32);
        }),
        on_middle("10 before 11: where with both full", &[Step(0)], |g| {
            crowd(g, 64, WHERE);
            g.bind(0, 0, Cell(0));
            chain(g, 32);
        }),
        on_middle("12: a handle not yet given", &[Answer(1, 1), Answer(16_777_215, 1)], |_| {}),
        on_middle("13: an outside call after 1000000", &[Step(0)], |g| g.record.calls = 1_000_000),
        on_middle("not 13: an outside call after 999999", &[Step(0)], |g| g.record.calls = 999_999),
        on_middle("not 13: a call that waits after 1000000", &[Step(0)], |g| {
            g.record.calls = 1_000_000;
            g.node(OUTSIDE, site(16, &[variable(0)], RETURN));
        }),
        on_middle("not 13: a built-in after 1000000", &[Step(0)], |g| {
            g.record.calls = 1_000_000;
            g.node(OUTSIDE, site(3, &[], RETURN));
        }),
    ];
    for (name, count) in [("10: call with 64 in use", 64), ("not 10: call with 63 in use", 63)] {
        let mut draft = middle();
        draft.node(CALL, call.clone());
        crowd(&mut draft, count, CALL);
        list.push(trial(Expected::Near, name, draft, &[Step(7)]));
    }
    list
}

/// What no run comes to, and the record allows: the call after it says 14.
fn odd_records() -> Vec<Trial> {
    let odd =
        |name, calls: &[Call], edit| trial(Expected::AtLast, name, edited(middle(), edit), calls);
    vec![
        odd("a return to a frame under a set cell, then 14", &[Step(0), Step(0)], |g| {
            g.stands_at(RETURN, Some(4));
            g.token(0).cell = Some(5);
            g.set_cell(5, 1);
        }),
        odd("a call that comes back to return with no frame, then 14", &[Step(0), Step(0)], |g| {
            g.token(3).caller = None
        }),
        odd("a start whose token lacks a value, then 14", &[Start, Step(0)], |g| {
            g.words[2] = PUBLISH as u32
        }),
    ]
}

/// A run: the start on a table's dag, then these calls.
pub(super) fn run(name: &str, program: Program, calls: &[Call]) -> Trial {
    let table = table::read(&program.bytes()).expect("a table");
    let draft = Draft { words: words::write(&dag::build(&table)), ..Draft::blank() };
    let calls: Vec<Call> = std::iter::once(Start).chain(calls.iter().copied()).collect();
    trial(Expected::Near, name, draft, &calls)
}

fn runs() -> Vec<Trial> {
    let x = || Param::Var(0);
    let example =
        prune(give(x()), fork(Expr::Site(16, vec![Param::Const(5)]), Expr::Site(17, vec![])));
    let calls = |count: usize| vec![Step(0); count];
    let mut example_calls = calls(5);
    example_calls.extend([Answer(1, 42)]);
    example_calls.extend(calls(4));
    example_calls.push(Answer(0, 7));
    let sums = sequence(fork(give(Param::Const(1)), give(Param::Const(2))), give(x()));
    let called = Program {
        definitions: vec![(1, fork(give(x()), Expr::Call(0, vec![x()])))],
        goal: prune(Expr::Call(0, vec![x()]), signal()),
    };
    vec![
        run("the example", Program::new(example), &example_calls),
        run("a sequence", Program::new(sums.clone()), &calls(12)),
        run("a sequence, the last first", Program::new(sums), &[0, 1, 1, 1, 0, 1, 1].map(Step)),
        run("a definition of an unset variable", called, &calls(9)),
    ]
}
