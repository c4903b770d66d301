//! Words that no record is written as, in every field of the layout that has such: what they say
//! keeps every rule. Then words beyond the range of each other field, whose low bits often lie
//! within it, and what comes near. Last each word of a record changed in turn, and starts.

use super::*;
use crate::layout::{CALLS, CLOCK, LAST_CELL, LAST_TOKEN, QUEUE, QUEUED, TIMED, TIMERS, WAITING};
use crate::layout::{WAITS, WORDS};
use crate::record::LAST_TIME;
use Binding::Cell;
use Call::{Advance, Answer, Start, Step};

const MOST: u32 = u32::MAX;

// The words of a token and of a cell.
const STATE: usize = 0;
const NUMBER: usize = 1;
const NODE: usize = 2;
const CALLER: usize = 3;
const UNDER: usize = 4;
const VALUED: usize = 5;
const VALUE: usize = 6;
const SPARE: usize = 7;
const PARENT: usize = 0;
const IS_SET: usize = 1;
const SET_TO: usize = 2;
const CELL_SPARE: usize = 3;

fn token(place: usize, field: usize) -> usize {
    layout::TOKEN * place + field
}

fn cell(place: usize, field: usize) -> usize {
    layout::CELLS + layout::CELL * place + field
}

fn kind(place: usize, variable: usize) -> usize {
    token(place, 8 + 2 * variable)
}

fn bound(place: usize, variable: usize) -> usize {
    token(place, 9 + 2 * variable)
}

type Words<'a> = &'a [(usize, u32)];

/// The record of the other cases with these words, then the calls.
fn changed(expected: Expected, name: &str, words: Words, calls: &[Call]) -> Trial {
    on(expected, name, middle(), words, calls)
}

fn on(expected: Expected, name: &str, draft: Draft, words: Words, calls: &[Call]) -> Trial {
    let words = words.iter().map(|(index, word)| Row::Record(*index, *word));
    let calls = calls.iter().map(|call| Row::Call(*call));
    rows(expected, name, draft.set().into_iter().chain(words).chain(calls))
}

/// Each would be accepted on the record that a case changes.
const BROKEN: [Call; 2] = [Step(0), Answer(0, 7)];

/// The first tests the rules and leaves the record (12).
const NEAR: [Call; 2] = [Answer(99, 7), Step(0)];

fn broken(name: &str, words: Words) -> Trial {
    changed(Expected::Broken, name, words, &BROKEN)
}

fn near(name: &str, words: Words) -> Trial {
    changed(Expected::Near, name, words, &NEAR)
}

/// The record with due tokens, of which only token 4 is left: it is due at 9.
fn one_due() -> Draft {
    let mut draft = timed();
    *draft.token(5) = Token::BLANK;
    draft.timers_are(&[4]);
    draft
}

pub fn list() -> Vec<Trial> {
    let no_record = [states(), values(), spares(), bindings(), cells()];
    let ranges = [tokens_named(), cells_named(), orders(), counts(), times()];
    let rest = [in_turn(), tests_in_order(), starts()];
    no_record.into_iter().chain(ranges).chain(rest).flatten().collect()
}

fn states() -> Vec<Trial> {
    vec![
        broken("words: state 6, read as a frame", &[(token(0, STATE), 6)]),
        broken("words: state 261, which is 5 in its low bits", &[(token(0, STATE), 261)]),
        broken("words: the largest state", &[(token(0, STATE), MOST)]),
        near("words: state 5", &[(token(0, STATE), 5)]),
        broken("words: a ready token with a state's number", &[(token(3, NUMBER), 1)]),
        broken("words: a frame with a state's number", &[(token(0, NUMBER), 1)]),
        broken("words: a blank token with a state's number", &[(token(50, NUMBER), 1)]),
        broken("words: the largest number of a blank token", &[(token(63, NUMBER), MOST)]),
        near("words: a waiting token with a state's number", &[(token(2, NUMBER), 31)]),
        near("words: a called-out token with a state's number", {
            &[(token(1, NUMBER), 6), (CALLS, 7)]
        }),
        on(
            Expected::Near,
            "words: a due token with a state's number",
            one_due(),
            &[(token(4, NUMBER), 6)],
            &NEAR,
        ),
    ]
}

fn values() -> Vec<Trial> {
    vec![
        broken("words: valued 2", &[(token(3, VALUED), 2)]),
        broken("words: valued 2, and a value", &[(token(3, VALUED), 2), (token(3, VALUE), 5)]),
        broken("words: valued 257, which is 1 in its low bits", &[(token(3, VALUED), 257)]),
        broken("words: the largest valued", &[(token(0, VALUED), MOST)]),
        near("words: valued 1", &[(token(3, VALUED), 1)]),
        near("words: valued 1, and the largest word", {
            &[(token(3, VALUED), 1), (token(3, VALUE), MOST)]
        }),
        near("words: valued 1, and the smallest value's word", {
            &[(token(3, VALUED), 1), (token(3, VALUE), 1 << 31)]
        }),
        broken("words: a ready token's value beside no value", &[(token(3, VALUE), 1)]),
        broken("words: a waiting token's value beside no value", &[(token(2, VALUE), 1 << 31)]),
        broken("words: a called-out token's value beside no value", &[(token(1, VALUE), 256)]),
        broken("words: a frame's value beside no value", &[(token(0, VALUE), MOST)]),
        broken("words: a blank token's value beside no value", &[(token(50, VALUE), 1)]),
    ]
}

fn spares() -> Vec<Trial> {
    vec![
        broken("words: a ready token's spare word", &[(token(3, SPARE), 1)]),
        broken("words: a waiting token's spare word", &[(token(2, SPARE), 1)]),
        broken("words: a called-out token's spare word", &[(token(1, SPARE), 256)]),
        on(
            Expected::Broken,
            "words: a due token's spare word",
            one_due(),
            &[(token(4, SPARE), 1)],
            &BROKEN,
        ),
        broken("words: a frame's spare word", &[(token(0, SPARE), MOST)]),
        broken("words: a blank token's spare word", &[(token(50, SPARE), 1)]),
        broken("words: the last token's spare word", &[(token(63, SPARE), 1 << 31)]),
    ]
}

fn bindings() -> Vec<Trial> {
    let mut list = Vec::new();
    for x in 0..8 {
        let name = |what: &str| format!("words: variable {x} {what}");
        list.extend([
            broken(&name("bound to kind 3, read as a cell"), &[(kind(3, x), 3)]),
            broken(&name("bound to kind 258, which is 2 in its low bits"), &[(kind(3, x), 258)]),
            broken(&name("bound to the largest kind"), &[(kind(0, x), MOST), (bound(0, x), 0)]),
            near(&name("bound to cell 31"), &[(kind(3, x), 2), (bound(3, x), 31)]),
            near(&name("bound to the largest word as a value"), {
                &[(kind(3, x), 1), (bound(3, x), MOST)]
            }),
            broken(&name("empty with a number"), &[(bound(1, x), 1)]),
            broken(&name("of a blank token empty with a number"), &[(bound(50, x), MOST)]),
        ]);
    }
    list
}

/// Cell 5 is set, and a token names it.
fn five_set() -> Draft {
    let mut draft = middle();
    draft.set_cell(5, 8);
    draft.bind(3, 6, Cell(5));
    draft
}

fn cells() -> Vec<Trial> {
    let five = |expected, name, words: Words| {
        let calls = if expected == Expected::Near { NEAR } else { BROKEN };
        on(expected, name, five_set(), words, &calls)
    };
    vec![
        five(Expected::Near, "words: a cell that is set", &[(cell(5, SET_TO), MOST)]),
        five(Expected::Broken, "words: a cell set with 2", &[(cell(5, IS_SET), 2)]),
        five(Expected::Broken, "words: a cell set with 257", &[(cell(5, IS_SET), 257)]),
        five(Expected::Broken, "words: a cell set with the largest", &[(cell(5, IS_SET), MOST)]),
        five(Expected::Broken, "words: a set cell's spare word", &[(cell(5, CELL_SPARE), 1)]),
        broken("words: an unset cell's value", &[(cell(0, SET_TO), 1)]),
        broken("words: a blank cell's value", &[(cell(9, SET_TO), 256)]),
        broken("words: the last cell's value", &[(cell(31, SET_TO), MOST)]),
        broken("words: an unset cell's spare word", &[(cell(0, CELL_SPARE), 1)]),
        broken("words: a blank cell's spare word", &[(cell(9, CELL_SPARE), 1 << 31)]),
        broken("words: the last cell's spare word", &[(cell(31, CELL_SPARE), MOST)]),
    ]
}

fn tokens_named() -> Vec<Trial> {
    vec![
        broken("words: node 65538, which is 2 in its low bits", &[(token(3, NODE), 65_538)]),
        broken("words: the largest node", &[(token(3, NODE), MOST)]),
        broken("words: a blank token at the largest node", &[(token(50, NODE), MOST)]),
        broken("words: caller 65", &[(token(3, CALLER), 65)]),
        broken("words: caller 257, which is 1 in its low bits", &[(token(3, CALLER), 257)]),
        broken("words: the largest caller", &[(token(3, CALLER), MOST)]),
        near("words: caller 64", &[(token(3, CALLER), 64)]),
        near("words: caller 0", &[(token(3, CALLER), 0)]),
        broken("words: newtoken 259, which is 3 in its low bits", &[(LAST_TOKEN, 259)]),
        broken("words: the largest newtoken", &[(LAST_TOKEN, MOST)]),
        near("words: newtoken 63", &[(LAST_TOKEN, 63)]),
    ]
}

fn cells_named() -> Vec<Trial> {
    vec![
        broken("words: cell 33", &[(token(3, UNDER), 33)]),
        broken("words: cell 257, which is 1 in its low bits", &[(token(3, UNDER), 257)]),
        broken("words: the largest cell", &[(token(3, UNDER), MOST)]),
        near("words: cell 32", &[(token(3, UNDER), 32)]),
        broken("words: waits at 256, which is 0 in its low bits", &[(token(2, NUMBER), 256)]),
        broken("words: waits at the largest", &[(token(2, NUMBER), MOST)]),
        broken("words: bound to cell 256", &[(bound(3, 0), 256)]),
        broken("words: bound to the largest cell", &[(bound(3, 0), MOST)]),
        broken(
            "words: a frame's variable 7 bound to cell 32",
            &[(kind(0, 7), 2), (bound(0, 7), 32)],
        ),
        broken("words: parent 33", &[(cell(0, PARENT), 33)]),
        broken("words: parent 258, which is 2 in its low bits", &[(cell(0, PARENT), 258)]),
        broken("words: the largest parent", &[(cell(0, PARENT), MOST)]),
        broken("words: the largest parent of a blank cell", &[(cell(9, PARENT), MOST)]),
        near("words: parent 32", &[(cell(0, PARENT), 32)]),
        near("words: parent 0", &[(cell(0, PARENT), 0)]),
        broken("words: newcell 256, which is 0 in its low bits", &[(LAST_CELL, 256)]),
        broken("words: the largest newcell", &[(LAST_CELL, MOST)]),
        near("words: newcell 31", &[(LAST_CELL, 31)]),
    ]
}

fn orders() -> Vec<Trial> {
    let orders = [
        ("queue", middle(), QUEUE, QUEUED, 3),
        ("waits", middle(), WAITS, WAITING, 2),
        ("timers", one_due(), TIMERS, TIMED, 4),
    ];
    let mut list = Vec::new();
    for (order, draft, names, count, place) in orders {
        let name = |what: &str| format!("words: {order} {what}");
        let near = |name: &str, words| on(Expected::Near, name, draft.clone(), words, &NEAR);
        let broken = |name: &str, words| on(Expected::Broken, name, draft.clone(), words, &BROKEN);
        list.extend([
            near(&name("names the place"), &[(names, place)]),
            broken(&name("names 256 more than the place"), &[(names, 256 + place)]),
            broken(&name("names 65536 more than the place"), &[(names, 65_536 + place)]),
            broken(&name("names the largest"), &[(names, MOST)]),
            broken(&name("has 256 behind it"), &[(names + 1, 256)]),
            broken(&name("has the largest behind it"), &[(names + 1, MOST)]),
            broken(&name("has the largest in its last word"), &[(names + 63, MOST)]),
            broken(&name("counts 0"), &[(count, 0)]),
            broken(&name("counts 65"), &[(count, 65)]),
            broken(&name("counts 257"), &[(count, 257)]),
            broken(&name("counts 65537"), &[(count, 65_537)]),
            broken(&name("counts 2147483649"), &[(count, (1 << 31) + 1)]),
            broken(&name("counts the largest"), &[(count, MOST)]),
        ]);
    }
    list
}

fn counts() -> Vec<Trial> {
    vec![
        broken("words: calls 1000001", &[(CALLS, 1_000_001)]),
        broken("words: calls 2147483649", &[(CALLS, (1 << 31) + 1)]),
        broken("words: the largest call count", &[(CALLS, MOST)]),
        near("words: calls 1000000", &[(CALLS, 1_000_000)]),
        broken("words: handle 256, which is 0 in its low bits", &[(token(1, NUMBER), 256)]),
        broken("words: the largest handle", &[(token(1, NUMBER), MOST)]),
    ]
}

/// The clock, and the due time of token 4.
fn times() -> Vec<Trial> {
    let near = |name, words| on(Expected::Near, name, one_due(), words, &NEAR);
    let broken = |name, words| on(Expected::Broken, name, one_due(), words, &BROKEN);
    vec![
        broken("words: clock 2147483648, which is 0 but for its sign", &[(CLOCK, LAST_TIME + 1)]),
        broken("words: the largest clock", &[(CLOCK, MOST)]),
        near("words: clock 8", &[(CLOCK, 8)]),
        near("words: clock 0", &[(CLOCK, 0)]),
        broken("words: due at 2147483657, which is 9 but for its sign", {
            &[(token(4, NUMBER), LAST_TIME + 10)]
        }),
        broken("words: due at the largest", &[(token(4, NUMBER), MOST)]),
        near("words: due at 2147483647", &[(token(4, NUMBER), LAST_TIME)]),
        near("words: due at 258, which is the clock in its low bits", &[(token(4, NUMBER), 258)]),
    ]
}

/// One ready token at the first of two stops.
fn at_stop() -> Draft {
    let dag = Dag { nodes: vec![Node::Stop; 2], definitions: vec![], goal: 0 };
    let mut draft = Draft { words: words::write(&dag), ..Draft::blank() };
    draft.token(0).state = State::Ready;
    draft.queue_is(&[0]);
    draft
}

/// For each word of the record: it is changed, the call made, and the word set back.
fn each_word(change: fn(u32) -> u32, call: Call) -> Vec<Row> {
    let draft = at_stop();
    let each = |(index, word): (usize, u32)| {
        [Row::Record(index, change(word)), Row::Call(call), Row::Record(index, word)]
    };
    let changes = draft.record_words().into_iter().enumerate().flat_map(each);
    draft.set().into_iter().chain(changes).collect()
}

/// Fields of the ready token in which 1 is lawful where 0 was: node, caller, cell, valued, eight
/// variables; and call count, newtoken, newcell, clock.
const LAWFUL_ONES: usize = 16;

fn in_turn() -> Vec<Trial> {
    let mut largest = each_word(|_| MOST, Step(0));
    largest.push(Row::Call(Step(0)));
    let ones = each_word(|word| word ^ 1, Answer(0, 7));
    vec![
        rows(Expected::ButLast, "each word the largest", largest),
        rows(Expected::Refused(LAWFUL_ONES), "each word one off", ones),
    ]
}

fn tests_in_order() -> Vec<Trial> {
    let spare = [(token(0, SPARE), 1)];
    vec![
        changed(Expected::Broken, "words: 14 before 9", &spare, &[Step(64), Step(MOST)]),
        changed(Expected::Broken, "words: 14 before 12", &spare, &[Answer(1, 7), Answer(99, 7)]),
        changed(Expected::Broken, "words: 14 before 15", &spare, &[Advance(1 << 31), Advance(0)]),
        on(Expected::Near, "words: all 0", at_dag(), &[], &[Step(0), Answer(0, 7), Advance(5)]),
    ]
}

/// The other cases' dag, and nothing but zeros for a record.
fn at_dag() -> Draft {
    Draft { words: middle().words, ..Draft::blank() }
}

fn starts() -> Vec<Trial> {
    let all: Vec<(usize, u32)> = (0..WORDS).map(|index| (index, MOST)).collect();
    let spare = [(token(3, SPARE), 1), (cell(31, CELL_SPARE), MOST)];
    let refused = |name, words: Words| {
        let mut draft = middle();
        draft.word(STOP, 0, 10);
        on(Expected::Broken, name, draft, words, &[Start])
    };
    vec![
        on(Expected::Near, "a start over the largest words", at_dag(), &all, &[Start, Step(0)]),
        changed(Expected::Near, "a start over spare words", &spare, &[Start, Step(0)]),
        refused("a refused start leaves the record", &[]),
        refused("a refused start leaves words that are no record's", &spare),
    ]
}
