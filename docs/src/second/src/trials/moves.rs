//! Lawful calls with the clock: calls of rwait, clock moves and their refusal 15, chokes that end due
//! tokens, runs.

use super::lawful::{alone, choking, crowd, run};
use super::*;
use crate::record::LAST_TIME;
use crate::syntax::{fork, prune, rwait, sequence, Expr, Param, Program};
use Binding::{Cell, Value};
use Call::{Advance, Answer, Step};

pub fn list() -> Vec<Trial> {
    [calls(), moves(), many(), refusals(), chokes(), beside(), runs()]
        .into_iter()
        .flatten()
        .collect()
}

/// A call of rwait that leads to publish: the step, then a move to the last time, and another step.
fn call(name: &str, parameter: Parameter, edit: Edit) -> Trial {
    let nodes = [site(7, &[parameter], 1), Node::Publish];
    alone(name, &[Step(0), Advance(LAST_TIME), Step(0)], &nodes, edit)
}

fn calls() -> Vec<Trial> {
    vec![
        call("rwait of 0", constant(0), |_| {}),
        call("rwait of 0 goes to the back of the queue", constant(0), |g| {
            *g.token(7) = g.record.tokens[0];
            g.queue_is(&[7, 0]);
        }),
        call("rwait of 1", constant(1), |_| {}),
        call("rwait of -1 is silent", constant(-1), |_| {}),
        call("rwait of the smallest is silent", constant(i32::MIN), |_| {}),
        call("rwait of the largest at 0", constant(i32::MAX), |_| {}),
        call("rwait of the largest at 1 never falls due", constant(i32::MAX), |g| {
            g.record.clock = 1
        }),
        call("rwait up to the last time", constant(i32::MAX - 5), |g| g.record.clock = 5),
        call("rwait one beyond the last time", constant(i32::MAX - 4), |g| g.record.clock = 5),
        call("rwait of 0 at the last time", constant(0), |g| g.record.clock = LAST_TIME),
        call("rwait of 1 at the last time", constant(1), |g| g.record.clock = LAST_TIME),
        call("rwait of the largest at the last time", constant(i32::MAX), |g| {
            g.record.clock = LAST_TIME
        }),
        call("rwait of -1 at a later time", constant(-1), |g| g.record.clock = 5),
        call("rwait without a value before it", constant(3), |g| g.token(0).value = None),
        call("rwait of a value", variable(7), |g| g.bind(0, 7, Value(4))),
        call("rwait of a set cell", variable(7), |g| {
            g.bind(0, 7, Cell(30));
            g.set_cell(30, 4);
        }),
        call("rwait of an unset cell waits", variable(7), |g| g.bind(0, 7, Cell(30))),
        call("rwait that never falls due blanks what it named", constant(i32::MAX), |g| {
            g.bind(0, 7, Cell(30));
            g.set_cell(30, 4);
            g.record.clock = 1;
        }),
        call("rwait behind those that called before", constant(1), |g| {
            for (place, time) in [(9, 5), (2, 3)] {
                *g.token(place) = g.record.tokens[0];
                g.due(place, time);
            }
            g.timers_are(&[9, 2]);
        }),
    ]
}

/// The record with due tokens, changed.
fn on_timed(name: &str, calls: &[Call], edit: Edit) -> Trial {
    trial(Expected::Near, name, edited(timed(), edit), calls)
}

fn moves() -> Vec<Trial> {
    vec![
        on_timed("to the present time", &[Advance(2), Advance(2)], |_| {}),
        on_timed("to one before the first due time", &[Advance(6)], |_| {}),
        on_timed("to the first due time", &[Advance(7), Step(1)], |_| {}),
        on_timed("past one of two", &[Advance(8), Advance(8)], |_| {}),
        on_timed("to the last due time", &[Advance(9), Step(0), Step(0)], |_| {}),
        on_timed("to one after the other", &[Advance(7), Advance(9)], |_| {}),
        on_timed("to the last time", &[Advance(LAST_TIME), Advance(LAST_TIME)], |_| {}),
        on_timed("with no token due", &[Advance(3), Advance(LAST_TIME)], |g| {
            for place in [4, 5] {
                *g.token(place) = Token::BLANK;
            }
            g.timers_are(&[]);
        }),
        on_timed("to the last time, with one due then", &[Advance(LAST_TIME)], |g| {
            g.due(4, LAST_TIME)
        }),
        on_timed("with an empty queue", &[Advance(7), Step(0)], |g| {
            *g.token(3) = Token::BLANK;
            g.queue_is(&[]);
        }),
        on_timed("a value of the token gives way to 0", &[Advance(9)], |g| {
            g.token(4).value = Some(i32::MIN)
        }),
    ]
}

/// So many due tokens at places from 10 on, each at a time of its own.
fn due_from_10(g: &mut Draft, times: &[u32]) {
    let one = g.record.tokens[4];
    for (place, time) in (10..).zip(times) {
        *g.token(place) = Token { state: State::Due(*time), ..one };
    }
}

/// Every token is due, token 0 last.
fn all_due(g: &mut Draft) {
    let one = g.record.tokens[4];
    for (place, token) in g.record.tokens.iter_mut().enumerate() {
        *token = Token { state: State::Due(100 - place as u32), ..one };
    }
    g.queue_is(&[]);
    g.waits_are(&[]);
    g.timers_are(&(0..64).collect::<Vec<u8>>());
}

fn many() -> Vec<Trial> {
    vec![
        on_timed("several due at one time, by order of call", &[Advance(7)], |g| {
            due_from_10(g, &[7, 7, 7]);
            g.timers_are(&[12, 4, 10, 5, 11]);
        }),
        on_timed("by due time, then by order of call", &[Advance(9)], |g| {
            due_from_10(g, &[5, 9, 5, 3, 9, 4]);
            g.timers_are(&[14, 12, 4, 10, 15, 11, 13, 5]);
        }),
        on_timed("those due later keep their order", &[Advance(8), Advance(30)], |g| {
            due_from_10(g, &[30, 8, 20, 9, 30, 8]);
            g.timers_are(&[14, 12, 4, 10, 15, 11, 13, 5]);
        }),
        on_timed("64 due at 64 times", &[Advance(68), Advance(99), Advance(100)], all_due),
        on_timed("64 due at one time", &[Advance(98), Advance(99)], |g| {
            all_due(g);
            (0..64).for_each(|place| g.due(place, 99));
            g.timers_are(&(0..64).rev().collect::<Vec<u8>>());
        }),
    ]
}

fn refusals() -> Vec<Trial> {
    vec![
        on_timed("15: back to 1 and to 0", &[Advance(1), Advance(0)], |_| {}),
        on_timed("not 15: the present time", &[Advance(2)], |_| {}),
        on_timed("15: 2147483648", &[Advance(LAST_TIME + 1)], |_| {}),
        on_timed("15: the largest time", &[Advance(u32::MAX)], |_| {}),
        on_timed("not 15: 2147483647", &[Advance(LAST_TIME)], |_| {}),
        on_timed(
            "15: back from the last time",
            &[Advance(LAST_TIME), Advance(LAST_TIME - 1)],
            |_| {},
        ),
        on_timed("15: back after a move", &[Advance(8), Advance(7), Advance(8)], |_| {}),
        on_timed("10: fork with 64 in use, 63 of them due", &[Step(0)], |g| {
            all_due(g);
            *g.token(9) = Token { node: FORK, state: State::Ready, ..Token::BLANK };
            g.queue_is(&[9]);
            g.timers_are(&(0..64).filter(|place| *place != 9).collect::<Vec<u8>>());
        }),
        on_timed("not 10: rwait with 64 in use", &[Step(0), Step(0)], |g| {
            crowd(g, 64, OUTSIDE);
            g.node(OUTSIDE, site(7, &[constant(3)], STOP));
            g.timers_are(&[]);
        }),
        on_timed("not 13: rwait after 1000000 calls", &[Step(0)], |g| {
            g.node(OUTSIDE, site(7, &[constant(3)], RETURN));
            g.record.calls = 1_000_000;
        }),
    ]
}

fn chokes() -> Vec<Trial> {
    vec![
        on_timed("choke ends a due token", &[Step(0), Advance(9)], |g| {
            choking(g);
            g.token(5).cell = Some(0);
        }),
        on_timed("choke ends due tokens under its descendants", &[Step(0), Advance(9)], |g| {
            choking(g);
            g.parent(1, 0);
            g.parent(2, 1);
            due_from_10(g, &[3, 9, 3, 20]);
            g.token(10).cell = Some(2);
            g.token(11).cell = Some(1);
            g.token(13).cell = Some(0);
            g.timers_are(&[13, 12, 11, 4, 10, 5]);
        }),
        on_timed("choke leaves due tokens above its cell", &[Step(0), Advance(9)], |g| {
            choking(g);
            g.parent(0, 8);
            g.token(4).cell = Some(8);
        }),
        on_timed("a woken token chokes and ends a due one", &[Advance(7), Step(1)], |g| {
            (g.token(5).node, g.token(5).cell) = (CHOKE, Some(0));
            g.token(4).cell = Some(0);
        }),
    ]
}

/// Other calls leave due tokens where they are.
fn beside() -> Vec<Trial> {
    vec![
        on_timed("an answer beside due tokens", &[Answer(0, 1), Advance(7)], |_| {}),
        on_timed("a new token passes due ones", &[Step(0)], |g| g.stands_at(FORK, None)),
        on_timed("a step that ends, beside due tokens", &[Step(0)], |g| g.stands_at(STOP, None)),
        on_timed("return leaves a frame that a due token names", &[Step(0)], |g| {
            g.stands_at(RETURN, Some(1));
            *g.token(2) = Token::BLANK;
            g.waits_are(&[]);
        }),
        on_timed("return blanks a frame that no due token names", &[Step(0)], |g| {
            g.stands_at(RETURN, Some(1));
            for place in [2, 5] {
                *g.token(place) = Token::BLANK;
            }
            g.waits_are(&[]);
            g.timers_are(&[4]);
        }),
    ]
}

fn runs() -> Vec<Trial> {
    let x = || Param::Var(0);
    let late = |time| rwait(Param::Const(time));
    let deadline = prune(Expr::Site(16, vec![x()]), fork(Expr::Site(17, vec![]), late(10)));
    let mut first = vec![Step(0); 5];
    first.extend([Advance(9), Advance(10), Step(0), Step(0), Answer(0, 7), Answer(1, 8)]);
    let three = fork(late(3), fork(late(1), late(2)));
    let mut second = vec![Step(0); 5];
    second.extend([Advance(3), Step(0), Step(0), Step(0)]);
    let again = sequence(late(5), late(5));
    let third = [Step(0), Advance(5), Step(0), Step(0), Advance(9), Advance(10), Step(0), Step(0)];
    vec![
        run("a deadline that comes first", Program::new(deadline), &first),
        run("three times in turn", Program::new(three), &second),
        run("one time after another", Program::new(again), &third),
    ]
}
