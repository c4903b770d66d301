//! Tail calls: which calls are, what the token becomes, what is blank after it; and calls that keep a
//! frame although they come near.

use super::lawful::{crowd, one_token, run};
use super::*;
use crate::rules::MOST_NODES;
use crate::syntax::{fork, give, prune, rwait, sequence, signal, Expr, Param, Program};
use Binding::{Cell, Value};
use Call::{Advance, Answer, Step};

pub fn list() -> Vec<Trial> {
    [becomes(), removes(), circles(), keeps_a_frame(), blanks(), crowded(), in_the_middle(), runs()]
        .into_iter()
        .flatten()
        .collect()
}

fn call(parameters: &[Parameter], next: usize) -> Node {
    Node::DefinitionCall { definition: 0, parameters: parameters.to_vec(), next }
}

fn remove(variable: usize, next: usize) -> Node {
    Node::Remove { variable, next }
}

/// A token with a value and all variables, called by the frame 9, stands at a call that leads to the
/// first of these nodes, which is node 1. The definition begins at a stop behind them.
fn called(name: &str, parameters: &[Parameter], rest: &[Node], edit: Edit) -> Trial {
    let nodes = [&[call(parameters, 1)], rest, &[Node::Stop]].concat();
    let mut draft = one_token(&nodes);
    let stop = nodes.len() - 1;
    *draft.token(9) = Token { node: stop, state: State::Frame, value: Some(-3), ..Token::BLANK };
    draft.token(0).caller = Some(9);
    (0..8).for_each(|slot| draft.bind(0, slot, Value(10 + slot as i32)));
    trial(Expected::Near, name, edited(draft, edit), &[Step(0), Step(0)])
}

/// The place, the caller and the cell stay; the formals are bound as the variables were before.
fn becomes() -> Vec<Trial> {
    let back = [Node::Return];
    let turned = [variable(1), variable(2), variable(3), variable(0)];
    let mut list = vec![
        called("a tail call", &[constant(-1)], &back, |_| {}),
        called("a tail call without parameters", &[], &back, |_| {}),
        called("a tail call without a value", &[constant(-1)], &back, |g| g.token(0).value = None),
        called("a tail call of two variables swapped", &[variable(1), variable(0)], &back, |_| {}),
        called("a tail call of four variables turned", &turned, &back, |_| {}),
        called("a tail call of one variable four times", &[variable(7); 4], &back, |_| {}),
        called("a tail call of the smallest constant", &[constant(i32::MIN)], &back, |_| {}),
        called("a tail call of an unset cell", &[variable(5)], &back, |g| g.bind(0, 5, Cell(30))),
        called("a tail call of a set cell", &[variable(5)], &back, |g| {
            g.bind(0, 5, Cell(30));
            g.set_cell(30, 6);
        }),
        called("a tail call of a set and an unset cell, swapped", &turned[..2], &back, |g| {
            g.bind(0, 1, Cell(30));
            g.bind(0, 2, Cell(31));
            g.set_cell(31, 6);
        }),
        called("a tail call in a cell", &[constant(1)], &back, |g| {
            g.token(0).cell = Some(12);
            g.parent(12, 11);
        }),
        called("a tail call to the back of the queue", &[constant(1)], &back, |g| {
            *g.token(5) = g.record.tokens[0];
            *g.token(3) = g.record.tokens[0];
            g.queue_is(&[0, 5, 3]);
        }),
        called("a tail call of one that another names as its caller", &[constant(1)], &back, |g| {
            *g.token(5) = Token { caller: Some(0), ..g.record.tokens[0] };
            g.queue_is(&[0, 5]);
        }),
    ];
    let mut draft = one_token(&[call(&[constant(1)], 1), Node::Return]);
    draft.token(0).value = None;
    let name = "a tail call without a caller, which comes to return, then 14";
    list.push(trial(Expected::AtLast, name, draft, &[Step(0), Step(0)]));
    list
}

/// Nothing but removes between the call and the return, as many as there may be.
fn removes() -> Vec<Trial> {
    let one = [constant(1)];
    let backward = [remove(0, 3), Node::Return, remove(7, 2)];
    let from = [remove(2, 3), Node::Return, remove(2, 4), remove(2, 2)];
    vec![
        called("a tail call behind a remove", &one, &[remove(0, 2), Node::Return], |_| {}),
        called(
            "a tail call behind a remove of what it passes",
            &[variable(4)],
            &[remove(4, 2), Node::Return],
            |g| g.bind(0, 4, Cell(3)),
        ),
        called("a tail call behind two removes, one further on", &one, &backward, |_| {}),
        called("a tail call behind three removes of one variable", &one, &from, |_| {}),
        filled("a tail call behind as many removes as there may be", Node::Return),
    ]
}

/// A call, then as many removes, one after the other, as a dag has room for, and this node at its end,
/// at which the definition begins.
fn filled(name: &str, last: Node) -> Trial {
    let removes = (1..MOST_NODES - 1).map(|at| remove(0, at + 1));
    let nodes: Vec<Node> =
        [call(&[constant(1)], 1)].into_iter().chain(removes).chain([last]).collect();
    assert_eq!(nodes.len(), MOST_NODES);
    let mut draft = one_token(&nodes);
    *draft.token(9) = Token { state: State::Frame, ..Token::BLANK };
    draft.token(0).caller = Some(9);
    trial(Expected::Near, name, draft, &[Step(0)])
}

/// Removes that go in a circle lead to no return: the call keeps a frame.
fn circles() -> Vec<Trial> {
    let one = [constant(1)];
    vec![
        called("a call in front of a remove that leads to itself", &one, &[remove(0, 1)], |_| {}),
        called(
            "a call in front of two removes in a circle",
            &one,
            &[remove(0, 2), remove(1, 1), Node::Return],
            |_| {},
        ),
        called(
            "a call in front of a remove and a circle of two",
            &one,
            &[remove(0, 2), remove(1, 3), remove(2, 2), Node::Return],
            |_| {},
        ),
        filled("a call in front of as many removes in a circle as there may be", remove(0, 1)),
    ]
}

/// What is neither a remove nor a return stands behind the call, or behind a remove.
fn keeps_a_frame() -> Vec<Trial> {
    let nodes = [
        ("stop", Node::Stop),
        ("a site call", site(3, &[], 3)),
        ("a call", call(&[constant(2)], 3)),
        ("a fork", Node::Fork { left: 3, right: 3 }),
        ("an assign", Node::Assign { variable: 0, next: 3 }),
        ("a where", Node::Where { variable: 0, left: 3, right: 3 }),
        ("a choke", Node::Choke),
        ("a publish", Node::Publish),
    ];
    let mut list = Vec::new();
    for (name, node) in nodes {
        let behind = format!("a call in front of a remove and {name} keeps a frame");
        list.push(called(
            &behind,
            &[constant(1)],
            &[remove(0, 2), node.clone(), Node::Return],
            |_| {},
        ));
        let name = format!("a call in front of {name} keeps a frame");
        list.push(called(&name, &[constant(1)], &[node, Node::Stop, Node::Return], |g| {
            g.token(0).cell = Some(4)
        }));
    }
    list
}

/// A cell that the token bound may be in use no more.
fn blanks() -> Vec<Trial> {
    let back = [remove(7, 2), Node::Return];
    vec![
        called("a tail call blanks a set cell", &[constant(1)], &back, |g| {
            g.bind(0, 7, Cell(2));
            g.set_cell(2, 6);
        }),
        called(
            "a tail call blanks an unset cell and the one above it",
            &[constant(1)],
            &back,
            |g| {
                g.bind(0, 7, Cell(2));
                g.parent(2, 5);
            },
        ),
        called("a tail call blanks one cell and passes another", &[variable(6)], &back, |g| {
            g.bind(0, 7, Cell(2));
            g.bind(0, 6, Cell(5));
            g.set_cell(5, 6);
        }),
        called("a tail call blanks eight cells", &[], &back, |g| {
            (0..8).for_each(|slot| g.bind(0, slot, Cell(3 * slot + 1)))
        }),
        called("a tail call drops a cell that its frame binds", &[], &back, |g| {
            g.bind(0, 7, Cell(2));
            g.bind(9, 0, Cell(2));
        }),
        called("a tail call drops a cell that a token belongs to", &[], &back, |g| {
            g.bind(0, 7, Cell(2));
            *g.token(4) = Token { state: State::CalledOut(0), cell: Some(2), ..g.record.tokens[9] };
            g.record.calls = 1;
        }),
        called("a tail call drops a cell above its own", &[], &back, |g| {
            g.bind(0, 7, Cell(2));
            g.token(0).cell = Some(6);
            g.parent(6, 2);
        }),
        called(
            "a tail call passes a cell twice and blanks another",
            &[variable(6); 2],
            &back,
            |g| {
                g.bind(0, 7, Cell(2));
                g.bind(0, 6, Cell(5));
            },
        ),
    ]
}

/// Every place has a token at a call that leads to this node, or at one that leads to a remove and then
/// to this node.
fn crowded() -> Vec<Trial> {
    let ways = [
        ("not 10: a tail call with 64 in use", RETURN, RETURN),
        ("not 10: a tail call behind a remove with 64 in use", REMOVE, RETURN),
        ("10: a call in front of a remove and a publish with 64 in use", REMOVE, PUBLISH),
        ("10: a call in front of a remove and an assign with 64 in use", REMOVE, ASSIGN),
        ("10: a call in front of a remove in a circle with 64 in use", REMOVE, REMOVE),
        ("10: a call in front of an assign with 64 in use", ASSIGN, RETURN),
    ];
    let draft = |next, behind| {
        let mut draft = middle();
        draft.node(CALL, call(&[constant(1)], next));
        draft.node(REMOVE, remove(0, behind));
        crowd(&mut draft, 64, CALL);
        draft.record.last_token = 40;
        draft
    };
    ways.map(|(name, next, behind)| trial(Expected::Near, name, draft(next, behind), &[Step(7)]))
        .into()
}

/// Token 3, called by the frame 0 as token 2 is, calls at the end of its body: it becomes the callee,
/// and the place given last stays.
fn in_the_middle() -> Vec<Trial> {
    let on = |name: &str, calls: &[Call], edit: Edit| {
        let mut draft = middle();
        draft.node(CALL, call(&[variable(0)], RETURN));
        draft.stands_at(CALL, None);
        trial(Expected::Near, name, edited(draft, edit), calls)
    };
    vec![
        on("a tail call beside another callee of its frame", &[Step(0), Answer(0, 3)], |_| {}),
        // The fork takes the place behind the last one given.
        on("a tail call gives no place", &[Step(0), Step(0)], |g| g.record.last_token = 20),
        on("a tail call from the middle of the queue", &[Step(1)], |g| {
            g.ready_too(4);
            g.ready_too(5);
        }),
        on("three tail calls, the last of the queue first", &[2, 1, 0].map(Step), |g| {
            g.ready_too(4);
            g.ready_too(5);
        }),
        on(
            "a tail call, then a choke of what it passes",
            &[Step(0), Answer(0, 3), Step(1)],
            |_| {},
        ),
    ]
}

fn runs() -> Vec<Trial> {
    let again = |params: &[Param]| Expr::Call(0, params.to_vec());
    let one = |formals, body, goal| Program { definitions: vec![(formals, body)], goal };
    let (a, b) = (Param::Var(0), Param::Var(1));
    let (three, four) = (Param::Const(3), Param::Const(4));
    let ticks = fork(signal(), sequence(rwait(Param::Const(5)), again(&[])));
    let drops = prune(sequence(give(a), again(&[])), signal());
    let races = prune(again(&[b, Param::Const(1)]), Expr::Site(16, vec![a]));
    let steps = |count: usize| vec![Step(0); count];
    let mut tick = steps(6);
    for time in [5, 10, 15] {
        tick.push(Advance(time));
        tick.extend(steps(7));
    }
    vec![
        run("E() = E()", one(0, again(&[]), again(&[])), &steps(5)),
        run("E() = E() >x> stop", one(0, sequence(again(&[]), Expr::Stop), again(&[])), &steps(5)),
        run("W() = stop <x< W()", one(0, prune(Expr::Stop, again(&[])), again(&[])), &steps(8)),
        run("E(a, b) = E(b, a)", one(2, again(&[b, a]), again(&[three, four])), &steps(4)),
        run("a metronome", one(0, ticks, again(&[])), &tick),
        run("a loop that drops a cell in each round", one(0, drops, again(&[])), &steps(16)),
        run(
            "a loop that leaves a call open in each round",
            one(2, races, again(&[three, four])),
            &steps(11),
        ),
    ]
}
