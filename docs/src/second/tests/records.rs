//! The list of cases on given records and dags: what it says of each holds, and it misses no clause.

use second::memory::{Case, Memory, Row, NO_RECORD};
use second::trials::{self, Expected};
use second::{layout, outcome};
use std::collections::BTreeSet;

#[test]
fn replies_are_as_the_list_says() {
    for trial in trials::all() {
        let (lines, refusals) = outcome::lines(&trial.case);
        assert!(trial.agrees(&refusals), "{lines}");
    }
}

#[test]
fn bytes_are_read_back() {
    for trial in trials::all() {
        assert_eq!(Case::read(&trial.case.bytes()), Some(trial.case));
    }
}

#[test]
fn names_differ() {
    let names: BTreeSet<String> = trials::all().into_iter().map(|trial| trial.case.name).collect();
    assert_eq!(names.len(), trials::all().len());
}

#[test]
fn refusals_leave_every_word() {
    for trial in trials::all() {
        let mut memory = Memory::blank();
        for row in trial.case.rows {
            let before = memory.clone();
            if let Some(Err(_)) = memory.act(row) {
                assert_eq!(memory, before, "{}", trial.case.name);
            }
        }
    }
}

/// What the first call of a case gets.
fn handed_over(case: &Case) -> Memory {
    let mut memory = Memory::blank();
    let is_set = |row: &&Row| !matches!(row, Row::Call(_));
    case.rows.iter().take_while(is_set).for_each(|row| assert_eq!(memory.act(*row), None));
    memory
}

/// Each broken case breaks one clause alone. (Where there are no nodes, no token can name one; and a
/// start does not look at the record.)
#[test]
fn every_clause_is_broken_alone_by_some_case() {
    let exceptions = ["no nodes", "a refused start leaves words that are no record's"];
    let mut broken = BTreeSet::new();
    for trial in trials::all().into_iter().filter(|trial| trial.expected == Expected::Broken) {
        let clauses = handed_over(&trial.case).broken();
        let alone = clauses.len() == 1 || exceptions.contains(&trial.case.name.as_str());
        assert!(alone, "{}: {clauses:?}", trial.case.name);
        broken.extend(clauses);
    }
    let clauses = BTreeSet::from([
        NO_RECORD.why,
        "kinds",
        "sites",
        "counts of the dag",
        "a built-in with its own count",
        "definitions",
        "nodes of the dag",
        "slots",
        "the call count",
        "nodes of tokens",
        "tokens named",
        "cells named",
        "an order's count, or a word behind it",
        "the queue names each ready token once",
        "each parent chain ends",
        "no live token under a set cell",
        "open handles",
        "the wait order names each waiting token once",
        "waiting at an unset cell",
        "the clock",
        "the order of call names each due token once",
        "due after the clock, and in its range",
        "what a token's node needs",
        "a ready token has the value it needs",
        "what is not in use is blank",
    ]);
    assert_eq!(broken, clauses);
}

/// The field of a token's or a cell's word, by its place in the row; the others are fields themselves.
fn field(index: usize) -> (&'static str, usize) {
    match index {
        0..layout::CELLS => ("token", index % layout::TOKEN),
        layout::CELLS..layout::QUEUE => ("cell", (index - layout::CELLS) % layout::CELL),
        _ => ("record", index),
    }
}

fn is_written_otherwise(words: &[u32], index: usize) -> bool {
    layout::write(&layout::read(words))[index] != words[index]
}

/// Of the fields that have words which no record is written as, none is missed.
#[test]
fn every_field_has_a_case_of_words_that_are_no_record() {
    let mut found = BTreeSet::new();
    for word in [1, 2, 3, 6, u32::MAX] {
        for index in 0..layout::WORDS {
            let mut words = vec![0; layout::WORDS];
            words[index] = word;
            found.extend(is_written_otherwise(&words, index).then(|| field(index)));
        }
    }
    let token = [0, 1, 5, 6, 7].into_iter().chain(8..layout::TOKEN).map(|word| ("token", word));
    let cell = [1, 2, 3].map(|word| ("cell", word));
    let fields: BTreeSet<_> = token.chain(cell).collect();
    assert_eq!(found, fields);
    let mut tried = BTreeSet::new();
    for trial in trials::all().into_iter().filter(|trial| trial.expected == Expected::Broken) {
        let memory = handed_over(&trial.case);
        if memory.broken() == [NO_RECORD.why] {
            let odd =
                (0..layout::WORDS).filter(|index| is_written_otherwise(&memory.record, *index));
            tried.extend(odd.map(field));
        }
    }
    assert_eq!(tried, fields);
}

/// What is written is read back.
#[test]
fn records_are_read_as_written() {
    for trial in trials::all() {
        let laid = layout::read(&handed_over(&trial.case).record);
        assert_eq!(layout::read(&layout::write(&laid)), laid);
    }
}
