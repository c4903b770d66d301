//! The index rules: a list of named checks, in an order in which each may rely on those before.
//!
//! The name of the first broken clause tells why a call answers 14.

use crate::dag::{Dag, Node, Parameter};
use crate::record::{Binding, Cell, Limits, Record, State, Token, BINDINGS, LAST_TIME};
use crate::sites;
use crate::table::MOST_DEFINITIONS;

pub const MOST_NODES: usize = 1022;

type DagRule = (&'static str, fn(&Dag) -> bool);
type RecordRule = (&'static str, fn(&Dag, &Record, &Limits) -> bool);

const DAG_RULES: [DagRule; 7] = [
    ("kinds", kinds_known),
    ("sites", sites_known),
    ("counts of the dag", dag_counts),
    ("a built-in with its own count", built_in_counts),
    ("definitions", definitions_there),
    ("nodes of the dag", dag_nodes),
    ("slots", dag_slots),
];

const RECORD_RULES: [RecordRule; 17] = [
    ("sizes of the tables", table_sizes),
    ("the call count", call_count),
    ("the clock", clock_in_range),
    ("nodes of tokens", token_nodes),
    ("tokens named", tokens_named),
    ("cells named", cells_named),
    ("the queue names each ready token once", queue_names_ready),
    ("each parent chain ends", chains_end),
    ("no live token under a set cell", none_under_set_cell),
    ("open handles", open_handles),
    ("the wait order names each waiting token once", waits_names_waiting),
    ("waiting at an unset cell", waits_at_unset),
    ("the order of call names each due token once", timers_name_due),
    ("due after the clock, and in its range", due_times),
    ("what a token's node needs", nodes_served),
    ("a ready token has the value it needs", values_there),
    ("what is not in use is blank", unused_blank),
];

/// So many of them say that what the record names is there.
const RANGES: usize = 6;

/// The first clause that the dag breaks.
pub fn broken_in_dag(dag: &Dag) -> Option<&'static str> {
    DAG_RULES.iter().find(|(_, holds)| !holds(dag)).map(|(name, _)| *name)
}

/// The first clause that the dag or else the record breaks.
pub fn broken(dag: &Dag, record: &Record, limits: &Limits) -> Option<&'static str> {
    broken_in_dag(dag).or_else(|| {
        RECORD_RULES.iter().find(|(_, holds)| !holds(dag, record, limits)).map(|(name, _)| *name)
    })
}

/// All clauses that are broken; those that rely on others only where the others hold.
pub fn all_broken(dag: &Dag, record: &Record, limits: &Limits) -> Vec<&'static str> {
    let fails = |(name, holds): &RecordRule| (!holds(dag, record, limits)).then_some(*name);
    let (ranges, rest) = RECORD_RULES.split_at(RANGES);
    let of_dag = DAG_RULES.iter().filter(|(_, holds)| !holds(dag)).map(|(name, _)| *name);
    let mut names: Vec<&'static str> = of_dag.chain(ranges.iter().filter_map(fails)).collect();
    if names.is_empty() {
        names.extend(rest.iter().filter_map(fails));
    }
    names
}

// The dag.

fn kinds_known(dag: &Dag) -> bool {
    dag.nodes.iter().all(|node| *node != Node::Unknown)
}

fn sites_known(dag: &Dag) -> bool {
    dag.nodes.iter().all(|node| match node {
        Node::SiteCall { site, .. } => sites::is_known(*site),
        _ => true,
    })
}

fn dag_counts(dag: &Dag) -> bool {
    dag.nodes.len() <= MOST_NODES
        && dag.definitions.len() <= MOST_DEFINITIONS
        && dag.definitions.iter().all(|definition| definition.formals <= sites::MOST_PARAMETERS)
        && dag.nodes.iter().all(|node| node.parameters().len() <= sites::MOST_PARAMETERS)
}

fn built_in_counts(dag: &Dag) -> bool {
    dag.nodes.iter().all(|node| match node {
        Node::SiteCall { site, parameters, .. } => sites::count_fits(*site, parameters.len()),
        _ => true,
    })
}

fn definitions_there(dag: &Dag) -> bool {
    dag.nodes.iter().all(|node| match node {
        Node::DefinitionCall { definition, .. } => *definition < dag.definitions.len(),
        _ => true,
    })
}

fn dag_nodes(dag: &Dag) -> bool {
    let there = |node: usize| node < dag.nodes.len();
    there(dag.goal)
        && dag.definitions.iter().all(|definition| there(definition.first))
        && dag.nodes.iter().all(|node| node.successors().into_iter().flatten().all(there))
}

fn dag_slots(dag: &Dag) -> bool {
    let slot = |parameter: &Parameter| match *parameter {
        Parameter::Variable(number) => number < BINDINGS,
        Parameter::Constant(_) => true,
    };
    dag.nodes.iter().all(|node| {
        node.variable().is_none_or(|variable| variable < BINDINGS)
            && node.parameters().iter().all(slot)
    })
}

// The record.

fn table_sizes(_: &Dag, record: &Record, limits: &Limits) -> bool {
    record.tokens.len() == limits.tokens && record.cells.len() == limits.cells
}

fn call_count(_: &Dag, record: &Record, limits: &Limits) -> bool {
    record.calls <= limits.calls
}

fn clock_in_range(_: &Dag, record: &Record, _: &Limits) -> bool {
    record.clock <= LAST_TIME
}

fn token_nodes(dag: &Dag, record: &Record, _: &Limits) -> bool {
    record.tokens.iter().all(|token| token.node < dag.nodes.len())
}

fn tokens_named(_: &Dag, record: &Record, limits: &Limits) -> bool {
    let callers = record.tokens.iter().filter_map(|token| token.caller);
    let orders = record.queue.iter().chain(&record.waits).chain(&record.timers).copied();
    callers.chain(orders).chain([record.last_token]).all(|place| place < limits.tokens)
}

fn cells_named(_: &Dag, record: &Record, limits: &Limits) -> bool {
    let there = |cell: usize| cell < limits.cells;
    let by_token = |token: &Token| {
        token.cell.is_none_or(there)
            && token.bound_cells().all(there)
            && waiting_at(token).is_none_or(there)
    };
    there(record.last_cell)
        && record.tokens.iter().all(by_token)
        && record.cells.iter().all(|cell| cell.parent.is_none_or(there))
}

fn queue_names_ready(_: &Dag, record: &Record, _: &Limits) -> bool {
    names_exactly(&record.queue, record, |token| token.state == State::Ready)
}

fn chains_end(_: &Dag, record: &Record, _: &Limits) -> bool {
    // A chain that ends passes no cell twice, so it is no longer than the table.
    (0..record.cells.len()).all(|cell| record.chain(Some(cell)).count() <= record.cells.len())
}

fn none_under_set_cell(_: &Dag, record: &Record, _: &Limits) -> bool {
    record.tokens.iter().all(|token| !token.is_live() || !record.is_under_set_cell(token))
}

fn open_handles(_: &Dag, record: &Record, _: &Limits) -> bool {
    let mut handles = record.open_handles();
    handles.sort_unstable();
    handles.windows(2).all(|pair| pair[0] != pair[1])
        && handles.iter().all(|handle| *handle < record.calls)
}

fn waits_names_waiting(_: &Dag, record: &Record, _: &Limits) -> bool {
    names_exactly(&record.waits, record, |token| waiting_at(token).is_some())
}

fn waits_at_unset(_: &Dag, record: &Record, _: &Limits) -> bool {
    let unset = |cell: usize| record.cells[cell].value.is_none();
    record.tokens.iter().filter_map(waiting_at).all(unset)
}

fn timers_name_due(_: &Dag, record: &Record, _: &Limits) -> bool {
    names_exactly(&record.timers, record, |token| token.due_time().is_some())
}

fn due_times(_: &Dag, record: &Record, _: &Limits) -> bool {
    let later = |time: u32| record.clock < time && time <= LAST_TIME;
    record.tokens.iter().filter_map(Token::due_time).all(later)
}

/// At return a frame, at choke a cell, at a call no empty variable. A blank token is at no node.
fn nodes_served(dag: &Dag, record: &Record, _: &Limits) -> bool {
    let is_frame = |place: usize| record.tokens[place].state == State::Frame;
    let filled = |token: &Token, parameter: &Parameter| match *parameter {
        Parameter::Variable(number) => token.bindings[number] != Binding::Empty,
        Parameter::Constant(_) => true,
    };
    let served = |token: &Token| match &dag.nodes[token.node] {
        Node::Return => token.caller.is_some_and(is_frame),
        Node::Choke => token.cell.is_some(),
        node => node.parameters().iter().all(|parameter| filled(token, parameter)),
    };
    record.tokens.iter().all(|token| token.state == State::Blank || served(token))
}

fn values_there(dag: &Dag, record: &Record, _: &Limits) -> bool {
    let needs_value = |token: &Token| {
        let node = &dag.nodes[token.node];
        let takes = matches!(
            node,
            Node::Assign { .. } | Node::Remove { .. } | Node::Return | Node::Choke | Node::Publish
        );
        takes && token.state == State::Ready
    };
    record.tokens.iter().all(|token| !needs_value(token) || token.value.is_some())
}

fn unused_blank(_: &Dag, record: &Record, _: &Limits) -> bool {
    let used = record.in_use();
    let tokens = record.tokens.iter().zip(used.tokens);
    let cells = record.cells.iter().zip(used.cells);
    tokens.into_iter().all(|(token, used)| used || *token == Token::BLANK)
        && cells.into_iter().all(|(cell, used)| used || *cell == Cell::BLANK)
}

fn waiting_at(token: &Token) -> Option<usize> {
    match token.state {
        State::Waiting(cell) => Some(cell),
        _ => None,
    }
}

/// Whether an order names each token with the property once, and nothing else.
fn names_exactly(order: &[usize], record: &Record, wanted: fn(&Token) -> bool) -> bool {
    let mut named = order.to_vec();
    named.sort_unstable();
    let all = (0..record.tokens.len()).filter(|place| wanted(&record.tokens[*place]));
    named.into_iter().eq(all)
}
