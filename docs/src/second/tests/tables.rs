//! The list of tables to load: each is answered as the list says, and it misses no number.

use second::loading::{self, Sample};
use second::table::{self, Refusal};
use second::{cases, dag, words};
use std::collections::BTreeSet;

#[test]
fn lines_are_as_the_list_says() {
    for Sample { name, bytes, line } in loading::named() {
        let lines = loading::lines(&[&bytes]);
        assert_eq!(lines.lines().next(), line.lines().next(), "{name}");
    }
}

/// 0 >x> let(x) >y> add(x, y), by hand.
#[test]
fn words_of_the_first() {
    let lines = "dag 8\nhead 8 0 2\n\
        node 4 0 5 0 0 0 0 0 0 0 0 0\n\
        node 5 0 7 0 0 0 0 0 0 0 0 0\n\
        node 1 3 0 0 0 0 0 0 0 0 0 0\n\
        node 4 1 6 0 0 0 0 0 0 0 0 0\n\
        node 5 1 1 0 0 0 0 0 0 0 0 0\n\
        node 1 0 3 1 7 0 0 0 0 0 0 0\n\
        node 1 4 4 2 7 0 7 1 0 0 0 0\n\
        node 9 0 0 0 0 0 0 0 0 0 0 0\n";
    assert_eq!(loading::lines(&[&loading::named()[0].bytes]), lines);
}

#[test]
fn names_differ() {
    let names: BTreeSet<String> = loading::named().into_iter().map(|sample| sample.name).collect();
    assert_eq!(names.len(), loading::named().len());
}

#[test]
fn every_kind_of_node_is_shown() {
    let mut kinds = BTreeSet::new();
    for sample in &loading::named()[..3] {
        let dag = dag::build(&table::read(&sample.bytes).expect("accepted"));
        kinds.extend(dag.nodes.iter().map(|node| words::node_words(node)[0]));
    }
    assert_eq!(kinds, (0..10).collect());
}

/// Named and by chance: accepted tables, and each number from 1 to 8.
#[test]
fn every_number_is_reached() {
    let by_chance =
        loading::tables(loading::SEED, loading::COUNT).split_off(loading::named().len());
    let named: Vec<Vec<u8>> = loading::named().into_iter().map(|sample| sample.bytes).collect();
    for tables in [named, by_chance] {
        let replies: BTreeSet<u8> = tables.iter().map(|bytes| number(table::read(bytes))).collect();
        assert_eq!(replies, (0..9).collect());
    }
}

fn number<T>(read: Result<T, Refusal>) -> u8 {
    read.map_or_else(|refusal| refusal.number, |_| 0)
}

#[test]
fn a_file_is_read_back() {
    let tables = loading::tables(loading::SEED, loading::COUNT);
    let bytes = loading::file(&tables);
    assert!(bytes.len() <= loading::MOST_BYTES);
    let read: Vec<Vec<u8>> =
        cases::split(&bytes).unwrap().iter().map(|table| table.to_vec()).collect();
    assert_eq!(read, tables);
}
