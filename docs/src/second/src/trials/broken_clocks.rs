//! Each clause that the clock brings: its range, due times, the order of call, due tokens under set
//! cells; then what the other clauses say of due tokens.

use super::broken_records::belongs;
use super::*;
use crate::record::LAST_TIME;
use Binding::{Cell, Value};

/// A step, an answer and a clock move, each of which would be accepted on the record that the case
/// changes.
fn broken(name: &str, edit: Edit) -> Trial {
    let calls = [Call::Step(0), Call::Answer(0, 7), Call::Advance(8)];
    trial(Expected::Broken, name, edited(timed(), edit), &calls)
}

/// A clock move that tests the rules and leaves the record (15), another one, then a step.
fn near(name: &str, edit: Edit) -> Trial {
    let calls = [Call::Advance(LAST_TIME + 1), Call::Advance(7), Call::Step(0)];
    trial(Expected::Near, name, edited(timed(), edit), &calls)
}

pub fn list() -> Vec<Trial> {
    let unchanged = near("the record with due tokens that the others change", |_| {});
    let lists = [times(), orders(), arrays(), set_cells(), at_nodes(), in_use(), tests_in_order()];
    std::iter::once(unchanged).chain(lists.into_iter().flatten()).collect()
}

/// No token is due.
fn none_due(g: &mut Draft) {
    for place in [4, 5] {
        *g.token(place) = Token::BLANK;
    }
    g.timers_are(&[]);
}

/// Every token is due.
fn all_due(g: &mut Draft) {
    let due = g.record.tokens[4];
    g.record.tokens.fill(due);
    g.queue_is(&[]);
    g.waits_are(&[]);
    g.timers_are(&(0..64).rev().collect::<Vec<u8>>());
}

fn times() -> Vec<Trial> {
    vec![
        broken("clock 2147483648", |g| {
            none_due(g);
            g.record.clock = LAST_TIME + 1;
        }),
        broken("the largest clock", |g| {
            none_due(g);
            g.record.clock = u32::MAX;
        }),
        near("clock 2147483647", |g| {
            none_due(g);
            g.record.clock = LAST_TIME;
        }),
        near("clock 0, and tokens due", |g| g.record.clock = 0),
        near("the clock one before a due time", |g| g.record.clock = 6),
        broken("the clock at a due time", |g| g.record.clock = 7),
        broken("the clock past one of two due times", |g| g.record.clock = 8),
        broken("due at the clock", |g| g.due(4, 2)),
        near("due one after the clock", |g| g.due(4, 3)),
        broken("due before the clock", |g| g.due(5, 1)),
        broken("due at 0", |g| g.due(5, 0)),
        broken("due at 0, the clock being at 0", |g| {
            g.due(5, 0);
            g.record.clock = 0;
        }),
        near("due at 2147483647", |g| g.due(4, LAST_TIME)),
        broken("due at 2147483648", |g| g.due(4, LAST_TIME + 1)),
        broken("due at the largest time", |g| g.due(4, u32::MAX)),
        near("clock 2147483646, two due at 2147483647", |g| {
            g.record.clock = LAST_TIME - 1;
            g.due(4, LAST_TIME);
            g.due(5, LAST_TIME);
        }),
    ]
}

fn orders() -> Vec<Trial> {
    vec![
        broken("order of call names a token twice", |g| g.timers_are(&[4, 5, 4])),
        broken("order of call names one of two twice and the other not", |g| {
            g.timers_are(&[4, 4]);
        }),
        near("order of call names two tokens in another order", |g| g.timers_are(&[5, 4])),
        broken("order of call is empty with tokens due", |g| g.timers_are(&[])),
        broken("order of call misses one of two", |g| g.timers_are(&[5])),
        near("order of call is empty with no token due", none_due),
        broken("order of call names a ready token", |g| g.timers_are(&[4, 5, 3])),
        broken("order of call names a waiting token", |g| g.timers_are(&[4, 2, 5])),
        broken("order of call names a called-out token", |g| g.timers_are(&[1, 4, 5])),
        broken("order of call names a frame", |g| g.timers_are(&[4, 5, 0])),
        broken("order of call names a blank token", |g| g.timers_are(&[4, 5, 9])),
        broken("order of call names 64", |g| g.timers_are(&[4, 5, 64])),
        broken("order of call names 255", |g| g.timers_are(&[4, 5, 255])),
        near("order of call names 63", |g| {
            *g.token(63) = g.record.tokens[4];
            g.timers_are(&[63, 5, 4]);
        }),
        broken("queue names a due token", |g| g.queue_is(&[3, 4])),
        near("queue names a token that was due and is ready", |g| {
            (g.token(4).state, g.token(4).value) = (State::Ready, Some(0));
            g.queue_is(&[3, 4]);
            g.timers_are(&[5]);
        }),
        broken("wait order names a due token", |g| g.waits_are(&[2, 5])),
    ]
}

fn arrays() -> Vec<Trial> {
    vec![
        broken("timed 65", |g| {
            all_due(g);
            g.timers.count = 65;
        }),
        broken("timed as large as can be", |g| g.timers.count = u32::MAX),
        near("timed 64", all_due),
        broken("a word behind the order of call", |g| g.timers.names[2] = 4),
        broken("a word at the end of the order of call's array", |g| g.timers.names[63] = 1),
    ]
}

fn set_cells() -> Vec<Trial> {
    vec![
        broken("a due token under a set cell", |g| belongs(g, 5, 5)),
        near("a due token under a cell beside a set one", |g| belongs(g, 5, 6)),
        broken("a due token whose cell has a set parent", |g| {
            belongs(g, 5, 6);
            g.parent(6, 5);
        }),
        near("a due token whose cell has a set child", |g| {
            belongs(g, 5, 6);
            g.parent(5, 6);
        }),
    ]
}

fn at_nodes() -> Vec<Trial> {
    vec![
        broken("a due token at the number of nodes", |g| g.token(4).node = NODES),
        broken("a due token at return with no caller", |g| g.token(5).caller = None),
        broken("a due token at return whose caller is due", |g| g.token(5).caller = Some(4)),
        broken("a due token at choke under the root", |g| g.token(4).node = CHOKE),
        near("a due token at choke under a cell", |g| {
            (g.token(4).node, g.token(4).cell) = (CHOKE, Some(0))
        }),
        broken("a due token at a call of an empty variable", |g| g.token(4).node = LET),
        near("a due token at a call of a value", |g| {
            g.token(4).node = LET;
            g.bind(4, 0, Value(1));
        }),
        near("a due token at assign without a value", |g| g.token(4).node = ASSIGN),
    ]
}

/// Times that would be refused with 15.
fn tests_in_order() -> Vec<Trial> {
    let calls = [Call::Advance(1), Call::Advance(LAST_TIME + 1), Call::Advance(u32::MAX)];
    let before = |name, edit: Edit| trial(Expected::Broken, name, edited(timed(), edit), &calls);
    vec![
        before("14 before 15: the clock", |g| {
            none_due(g);
            g.record.clock = LAST_TIME + 1;
        }),
        before("14 before 15: a due time", |g| g.due(4, 2)),
        before("14 before 15: the order of call", |g| g.timers_are(&[4])),
    ]
}

fn in_use() -> Vec<Trial> {
    vec![
        near("a frame that only a due token names", |g| {
            (g.token(50).state, g.token(50).node) = (State::Frame, STOP);
            g.token(4).caller = Some(50);
        }),
        near("a set cell that only a due token names", |g| {
            g.set_cell(9, 0);
            g.bind(4, 7, Cell(9));
        }),
        near("a cell with a parent that only a due token belongs to", |g| {
            g.parent(9, 8);
            g.token(4).cell = Some(9);
        }),
        broken("a cell with a parent to which no due token belongs", |g| {
            g.parent(9, 8);
            g.token(4).cell = Some(8);
        }),
    ]
}
