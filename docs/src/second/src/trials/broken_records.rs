//! Each clause on the record, in the order of the paper's sentence, then the fields it does not name.

use super::*;
use Binding::{Cell, Empty, Value};

/// A step, an answer and a clock move, each of which would be accepted on the record that the case
/// changes.
fn broken(name: &str, edit: Edit) -> Trial {
    let calls = [Call::Step(0), Call::Answer(0, 7), Call::Advance(0)];
    trial(Expected::Broken, name, edited(middle(), edit), &calls)
}

/// An answer that tests the rules and leaves the record (12), then a step.
fn near(name: &str, edit: Edit) -> Trial {
    let calls = [Call::Answer(99, 7), Call::Step(0)];
    trial(Expected::Near, name, edited(middle(), edit), &calls)
}

pub fn list() -> Vec<Trial> {
    let ranges = [tokens_named(), cells_named(), places_and_counts()];
    let orders = [queue(), parents(), set_cells(), handles(), waits()];
    let rest = [at_nodes(), values(), blanks()];
    let unchanged = near("the record that the others change", |_| {});
    let lists = ranges.into_iter().chain(orders).chain(rest).flatten();
    std::iter::once(unchanged).chain(lists).collect()
}

fn tokens_named() -> Vec<Trial> {
    vec![
        broken("a token at the number of nodes", |g| g.stands_at(NODES, None)),
        broken("a token at the largest node", |g| g.stands_at(65_535, None)),
        broken("a frame at the number of nodes", |g| g.token(0).node = NODES),
        near("a token at the last node", |g| g.stands_at(STOP, None)),
        broken("a caller at 64", |g| g.token(3).caller = Some(64)),
        broken("a caller at 255", |g| g.token(3).caller = Some(255)),
        near("a caller at 63", |g| g.token(3).caller = Some(63)),
        near("no caller", |g| g.token(3).caller = None),
        near("a caller that calls itself", |g| g.token(0).caller = Some(0)),
    ]
}

fn cells_named() -> Vec<Trial> {
    vec![
        broken("a binding to cell 32", |g| g.bind(3, 7, Cell(32))),
        broken("a binding to cell 255", |g| g.bind(3, 7, Cell(255))),
        near("a binding to cell 31", |g| g.bind(3, 7, Cell(31))),
        near("a binding to the smallest value", |g| g.bind(3, 7, Value(i32::MIN))),
        broken("a token of cell 32", |g| g.token(3).cell = Some(32)),
        near("a token of cell 31", |g| g.token(3).cell = Some(31)),
        broken("a token that waits at cell 32", |g| g.token(2).state = State::Waiting(32)),
        near("a token that waits at cell 31, which it does not name", |g| {
            g.token(2).state = State::Waiting(31)
        }),
        broken("a parent at 32", |g| g.parent(0, 32)),
        near("a parent at 31", |g| g.parent(0, 31)),
    ]
}

/// The fields beside the tables.
fn places_and_counts() -> Vec<Trial> {
    vec![
        broken("newtoken 64", |g| g.record.last_token = 64),
        broken("newtoken 255", |g| g.record.last_token = 255),
        near("newtoken 63", |g| g.record.last_token = 63),
        broken("newcell 32", |g| g.record.last_cell = 32),
        broken("newcell 255", |g| g.record.last_cell = 255),
        near("newcell 31", |g| g.record.last_cell = 31),
        broken("calls 1000001", |g| g.record.calls = 1_000_001),
        near("calls 1000000", |g| g.record.calls = 1_000_000),
        broken("queued 65", |g| {
            all_ready(g);
            g.queue.count = 65;
        }),
        broken("queued as large as can be", |g| g.queue.count = u32::MAX),
        near("queued 64", all_ready),
        broken("waiting 65", |g| {
            all_waiting(g);
            g.waits.count = 65;
        }),
        broken("waiting as large as can be", |g| g.waits.count = u32::MAX),
        near("waiting 64", all_waiting),
        broken("a word behind the queue", |g| g.queue.names[1] = 3),
        broken("a word at the end of the queue's array", |g| g.queue.names[63] = 1),
        broken("a word behind the wait order", |g| g.waits.names[1] = 2),
        broken("a word at the end of the wait order's array", |g| g.waits.names[63] = 1),
    ]
}

/// Every token is ready, at stop, and the queue is full.
fn all_ready(g: &mut Draft) {
    let ready = Token { node: STOP, state: State::Ready, ..Token::BLANK };
    g.record.tokens.fill(ready);
    g.waits_are(&[]);
    g.queue_is(&(0..64).collect::<Vec<u8>>());
}

/// Every token waits at cell 0.
fn all_waiting(g: &mut Draft) {
    let waits = g.record.tokens[2];
    g.record.tokens.fill(waits);
    g.queue_is(&[]);
    g.waits_are(&(0..64).rev().collect::<Vec<u8>>());
}

fn queue() -> Vec<Trial> {
    vec![
        broken("queue names a token twice", |g| g.queue_is(&[3, 3])),
        broken("queue names one of two twice and the other not", |g| {
            g.ready_too(4);
            g.queue_is(&[3, 3]);
        }),
        near("queue names two tokens", |g| g.ready_too(4)),
        near("queue names two tokens in another order", |g| {
            g.ready_too(4);
            g.queue_is(&[4, 3]);
        }),
        broken("queue is empty with a token ready", |g| g.queue_is(&[])),
        broken("queue misses one of two", |g| {
            g.ready_too(4);
            g.queue_is(&[4]);
        }),
        near("queue is empty with no token ready", |g| {
            *g.token(3) = Token::BLANK;
            g.queue_is(&[]);
        }),
        broken("queue names a frame", |g| g.queue_is(&[3, 0])),
        near("queue names a token that was a frame and is ready", |g| {
            (g.token(0).state, g.token(0).value) = (State::Ready, Some(4));
            g.queue_is(&[3, 0]);
        }),
        broken("queue names a called-out token", |g| g.queue_is(&[3, 1])),
        broken("queue names a waiting token", |g| g.queue_is(&[2, 3])),
        broken("queue names a blank token", |g| g.queue_is(&[3, 9])),
        broken("queue names 64", |g| g.queue_is(&[3, 64])),
        broken("queue names 255", |g| g.queue_is(&[3, 255])),
        near("queue names 63", |g| g.ready_too(63)),
    ]
}

fn parents() -> Vec<Trial> {
    vec![
        broken("a cell that is its own parent", |g| g.parent(0, 0)),
        broken("two cells that are each other's parents", |g| {
            g.parent(0, 1);
            g.parent(1, 0);
        }),
        broken("a chain into a circle that it is no part of", |g| {
            g.parent(0, 1);
            g.parent(1, 2);
            g.parent(2, 1);
        }),
        broken("all cells in one circle", |g| {
            (0..32).for_each(|cell| g.parent(cell, (cell + 1) % 32))
        }),
        broken("a circle that only a binding leads to", |g| {
            g.parent(20, 20);
            g.bind(3, 7, Cell(20));
        }),
        near("all cells in one chain", |g| (0..31).for_each(|cell| g.parent(cell, cell + 1))),
        near("all cells in one chain, last to first", |g| {
            (1..32).for_each(|cell| g.parent(cell, cell - 1));
            g.bind(3, 7, Cell(31));
        }),
    ]
}

/// Cell 5 is set and in use; cell 6 is in use too.
fn five_is_set(g: &mut Draft) {
    g.set_cell(5, 8);
    for token in 2..4 {
        g.bind(token, 6, Cell(5));
        g.bind(token, 7, Cell(6));
    }
}

/// The token belongs to the cell, cell 5 being set. Another token has it as its caller, so that it
/// is in use either way.
pub(super) fn belongs(g: &mut Draft, token: usize, cell: usize) {
    five_is_set(g);
    g.token(token).cell = Some(cell);
    g.token(token).caller = Some(0);
    let other = if token == 3 { 2 } else { 3 };
    g.token(other).caller = Some(token);
}

fn set_cells() -> Vec<Trial> {
    vec![
        near("a cell that is set and bound", five_is_set),
        broken("a ready token under a set cell", |g| belongs(g, 3, 5)),
        near("a ready token under a cell beside a set one", |g| belongs(g, 3, 6)),
        broken("a waiting token under a set cell", |g| belongs(g, 2, 5)),
        near("a waiting token under a cell beside a set one", |g| belongs(g, 2, 6)),
        broken("a called-out token under a set cell", |g| belongs(g, 1, 5)),
        near("a called-out token under a cell beside a set one", |g| belongs(g, 1, 6)),
        broken("a ready token whose cell has a set parent", |g| {
            belongs(g, 3, 6);
            g.parent(6, 5);
        }),
        near("a ready token whose cell has a set child", |g| {
            belongs(g, 3, 6);
            g.parent(5, 6);
        }),
        broken("a called-out token at the bottom of 32 cells, the top one set", |g| {
            belongs(g, 1, 0);
            (0..31).for_each(|cell| g.parent(cell, cell + 1));
            g.record.cells[5].value = None;
            g.set_cell(31, 0);
        }),
        near("a called-out token at the bottom of 31 cells, one beside them set", |g| {
            belongs(g, 1, 0);
            (0..30).for_each(|cell| g.parent(cell, cell + 1));
            g.record.cells[5].value = None;
            g.set_cell(31, 0);
            g.bind(3, 7, Cell(31));
        }),
        near("a frame under a set cell", |g| {
            five_is_set(g);
            g.token(0).cell = Some(5);
        }),
    ]
}

fn handles() -> Vec<Trial> {
    vec![
        broken("two tokens called out under one handle", |g| {
            g.token(3).state = State::CalledOut(0);
            g.queue_is(&[]);
            g.record.calls = 2;
        }),
        near("two tokens called out under two handles", |g| {
            g.token(3).state = State::CalledOut(1);
            g.queue_is(&[]);
            g.record.calls = 2;
        }),
        broken("a handle at the call count", |g| g.token(1).state = State::CalledOut(1)),
        broken("a handle as large as can be", |g| g.token(1).state = State::CalledOut(u32::MAX)),
        broken("a handle, and no calls made", |g| g.record.calls = 0),
        near("a handle one below the call count", |g| {
            g.token(1).state = State::CalledOut(6);
            g.record.calls = 7;
        }),
        near("handle 999999 of 1000000 calls", |g| {
            g.token(1).state = State::CalledOut(999_999);
            g.record.calls = 1_000_000;
        }),
    ]
}

/// Token 4 waits like token 2.
fn two_wait(g: &mut Draft) {
    *g.token(4) = g.record.tokens[2];
    g.waits_are(&[2, 4]);
}

fn waits() -> Vec<Trial> {
    vec![
        broken("wait order names a token twice", |g| g.waits_are(&[2, 2])),
        broken("wait order names one of two twice and the other not", |g| {
            two_wait(g);
            g.waits_are(&[4, 4]);
        }),
        near("wait order names two tokens", two_wait),
        near("wait order names two tokens in another order", |g| {
            two_wait(g);
            g.waits_are(&[4, 2]);
        }),
        broken("wait order is empty with a token waiting", |g| g.waits_are(&[])),
        broken("wait order misses one of two", |g| {
            two_wait(g);
            g.waits_are(&[2]);
        }),
        near("wait order is empty with no token waiting", |g| {
            *g.token(2) = Token::BLANK;
            g.waits_are(&[]);
        }),
        broken("wait order names a ready token", |g| g.waits_are(&[2, 3])),
        broken("wait order names a called-out token", |g| g.waits_are(&[2, 1])),
        broken("wait order names a frame", |g| g.waits_are(&[2, 0])),
        broken("wait order names a blank token", |g| g.waits_are(&[2, 9])),
        broken("wait order names 64", |g| g.waits_are(&[2, 64])),
        near("wait order names 63", |g| {
            *g.token(63) = g.record.tokens[2];
            g.waits_are(&[63, 2]);
        }),
        broken("a token that waits at a set cell", |g| {
            five_is_set(g);
            g.token(2).state = State::Waiting(5);
        }),
        near("a token that waits at an unset cell beside a set one", |g| {
            five_is_set(g);
            g.token(2).state = State::Waiting(6);
        }),
    ]
}

/// Return, choke and calls, for ready tokens and for those that only stand there.
fn at_nodes() -> Vec<Trial> {
    vec![
        broken("a ready token at return with no caller", |g| {
            g.stands_at(RETURN, Some(4));
            g.token(3).caller = None;
        }),
        broken("a ready token at return whose caller is called out", |g| {
            g.stands_at(RETURN, Some(4));
            g.token(3).caller = Some(1);
        }),
        broken("a ready token at return whose caller is blank", |g| {
            g.stands_at(RETURN, Some(4));
            g.token(3).caller = Some(9);
        }),
        near("a ready token at return whose caller is a frame", |g| g.stands_at(RETURN, Some(4))),
        broken("a called-out token at return with no caller", |g| g.token(1).node = RETURN),
        near("a called-out token at return whose caller is a frame", |g| {
            (g.token(1).node, g.token(1).caller) = (RETURN, Some(0))
        }),
        broken("a frame at return with no caller", |g| g.token(0).node = RETURN),
        near("a frame at return that is its own caller", |g| {
            (g.token(0).node, g.token(0).caller) = (RETURN, Some(0))
        }),
        broken("a waiting token at return whose caller waits", |g| {
            (g.token(2).node, g.token(2).caller) = (RETURN, Some(2))
        }),
        broken("a ready token at choke under the root", |g| g.stands_at(CHOKE, Some(4))),
        near("a ready token at choke under a cell", |g| {
            g.stands_at(CHOKE, Some(4));
            g.token(3).cell = Some(0);
        }),
        broken("a called-out token at choke under the root", |g| g.token(1).cell = None),
        broken("a frame at choke under the root", |g| g.token(0).node = CHOKE),
        near("a frame at choke under a cell", |g| {
            (g.token(0).node, g.token(0).cell) = (CHOKE, Some(0))
        }),
        broken("a ready token at a site call of an empty variable", |g| {
            g.stands_at(LET, None);
            g.bind(3, 0, Empty);
        }),
        near("a ready token at a site call of a value", |g| {
            g.stands_at(LET, None);
            g.bind(3, 0, Value(0));
        }),
        near("a ready token at a site call of an unset cell", |g| g.stands_at(LET, None)),
        broken("a ready token at a definition call of an empty variable", |g| {
            g.stands_at(CALL, None);
            g.bind(3, 0, Empty);
        }),
        near("a ready token at a definition call of an unset cell", |g| g.stands_at(CALL, None)),
        near("a ready token at a call that names no empty variable", |g| g.bind(3, 0, Empty)),
        broken("a waiting token at a call of an empty variable", |g| g.bind(2, 0, Empty)),
        broken("a called-out token at a call of an empty variable", |g| g.token(1).node = LET),
        broken("a frame at a call of an empty variable", |g| {
            g.token(0).node = LET;
            g.bind(0, 0, Empty);
        }),
        broken("a ready token at a call whose last of four is empty", |g| {
            let four = [variable(0), constant(1), constant(1), variable(7)];
            g.node(OUTSIDE, site(16, &four, RETURN));
        }),
        near("a ready token at a call none of whose four is empty", |g| {
            let four = [variable(0), constant(1), constant(1), variable(7)];
            g.node(OUTSIDE, site(16, &four, RETURN));
            g.bind(3, 7, Value(-1));
        }),
    ]
}

/// The five nodes at which a ready token has a value.
fn values() -> Vec<Trial> {
    vec![
        broken("a ready token at assign without a value", |g| g.stands_at(ASSIGN, None)),
        near("a ready token at assign with a value", |g| g.stands_at(ASSIGN, Some(0))),
        broken("a ready token at remove without a value", |g| g.stands_at(REMOVE, None)),
        near("a ready token at remove with a value", |g| g.stands_at(REMOVE, Some(0))),
        broken("a ready token at return without a value", |g| g.stands_at(RETURN, None)),
        near("a ready token at return with a value", |g| g.stands_at(RETURN, Some(0))),
        broken("a ready token at choke without a value", |g| {
            g.stands_at(CHOKE, None);
            g.token(3).cell = Some(0);
        }),
        near("a ready token at choke with a value", |g| {
            g.stands_at(CHOKE, Some(0));
            g.token(3).cell = Some(0);
        }),
        broken("a ready token at publish without a value", |g| g.stands_at(PUBLISH, None)),
        near("a ready token at publish with a value", |g| g.stands_at(PUBLISH, Some(0))),
        near("a called-out token at publish without a value", |g| g.token(1).node = PUBLISH),
        near("a waiting token at assign without a value", |g| g.token(2).node = ASSIGN),
        near("a ready token at stop without a value", |g| g.stands_at(STOP, None)),
        near("a ready token at fork without a value", |g| g.stands_at(FORK, None)),
        near("a ready token at where without a value", |g| g.stands_at(WHERE, None)),
    ]
}

fn blanks() -> Vec<Trial> {
    vec![
        broken("a token not in use with a node", |g| g.token(50).node = 1),
        broken("a token not in use with a cell bound", |g| g.bind(50, 7, Cell(0))),
        broken("a token not in use with a value bound", |g| g.bind(50, 0, Value(0))),
        broken("a token not in use with a value", |g| g.token(50).value = Some(0)),
        broken("a token not in use with a caller", |g| g.token(50).caller = Some(0)),
        broken("a token not in use with a cell", |g| g.token(50).cell = Some(0)),
        broken("a frame not in use", |g| g.token(50).state = State::Frame),
        broken("two frames that only each other name", |g| {
            for (frame, caller) in [(50, 51), (51, 50)] {
                g.token(frame).state = State::Frame;
                g.token(frame).node = STOP;
                g.token(frame).caller = Some(caller);
            }
        }),
        near("a frame that the ready token has as its caller", |g| {
            (g.token(50).state, g.token(50).node) = (State::Frame, STOP);
            g.token(3).caller = Some(50);
        }),
        near("a frame that a frame in use has as its caller", |g| {
            (g.token(50).state, g.token(50).node) = (State::Frame, STOP);
            g.token(0).caller = Some(50);
        }),
        near("a token in state blank that is a caller and has a value", |g| {
            g.token(50).value = Some(1);
            g.token(3).caller = Some(50);
        }),
        near("a token in state blank that is a caller and stands at choke", |g| {
            g.token(50).node = CHOKE;
            g.token(3).caller = Some(50);
        }),
        broken("a cell not in use with a value", |g| g.set_cell(9, 0)),
        broken("a cell not in use with a parent", |g| g.parent(9, 0)),
        near("a cell with a value that the ready token names", |g| {
            g.set_cell(9, 0);
            g.bind(3, 7, Cell(9));
        }),
        near("a cell with a value that a frame names", |g| {
            g.set_cell(9, 0);
            g.bind(0, 7, Cell(9));
        }),
        near("a cell with a parent that the ready token names", |g| {
            g.parent(9, 0);
            g.bind(3, 7, Cell(9));
        }),
    ]
}
