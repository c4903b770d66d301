//! What happens inside the runs of a set of cases: lines alone do not show whether a choke ended
//! a called-out token, or whether a place was given a second time.

use crate::dag::{self, Dag, Node, Parameter};
use crate::lines::{delivery, Delivery, MOST_INPUT, MOST_STEPS, RECORD};
use crate::machine::{Machine, Reply};
use crate::record::{Binding, Record, State, Token, LAST_TIME};
use crate::sites;
use crate::table;
use std::collections::{BTreeMap, BTreeSet};

/// Happenings that a good set of cases has, each with how often it was seen.
#[derive(Default)]
pub struct Coverage {
    pub counts: BTreeMap<&'static str, usize>,
}

pub const HAPPENINGS: [&str; 71] = [
    "all 32 cells in use",
    "all 64 tokens in use",
    "answer accepted",
    "answer accepted after one to a later call",
    "answer accepted while a token is due later",
    "answer refused, answered before",
    "answer refused, call ended by a choke",
    "answer refused, not called yet",
    "assign",
    "cell place given again from 0",
    "choke",
    "choke ends a called-out token",
    "choke ends a due token",
    "choke ends a frame",
    "choke ends a ready token",
    "choke ends a waiting token",
    "choke wakes one token",
    "choke wakes several tokens",
    "clock move accepted",
    "clock move refused, back",
    "clock move refused, out of range",
    "clock move to one before a due time",
    "clock move to the last time",
    "clock move to the present time",
    "clock move wakes no token",
    "clock move wakes one token",
    "clock move wakes several tokens",
    "clock move wakes several, due at one time",
    "clock move wakes several, not as they called",
    "clock move wakes some and leaves some",
    "definition call",
    "definition call in a body keeps a frame",
    "definition call of the goal in last place",
    "definition call passes a set cell",
    "definition call passes an unset cell",
    "definition call under 8 frames or more",
    "fork",
    "outside call",
    "outside call with four values",
    "piece after a refused step",
    "piece after limit",
    "piece after table",
    "piece with an empty queue",
    "publish",
    "remove",
    "return",
    "return leaves its frame in use",
    "rwait, 0",
    "rwait, due later",
    "rwait, due later, the clock past 0",
    "rwait, negative",
    "rwait, never due",
    "rwait, waits for its time",
    "set cell stays in use",
    "silent built-in",
    "site call reads a set cell",
    "stop",
    "tail call",
    "tail call behind a remove",
    "tail call lets a bound cell go out of use",
    "tail call of another definition",
    "tail call passes a set cell",
    "tail call passes a variable in another place",
    "tail call passes an unset cell",
    "tail call under a cell",
    "tail call with 64 tokens in use",
    "token place given again from 0",
    "value from a built-in",
    "wait",
    "wait behind a parameter that is set",
    "where",
];

impl Coverage {
    pub fn count(&self, happening: &str) -> usize {
        self.counts.get(happening).copied().unwrap_or(0)
    }

    /// Runs one case as orcrun does and notes what happens.
    pub fn add(&mut self, input: &[u8]) {
        let (bytes, records) = input.split_at(table::length_in(input));
        if input.len() > MOST_INPUT {
            return;
        }
        let piece = records.len() % RECORD != 0;
        match table::read(bytes) {
            Ok(table) => {
                let end = self.run(&dag::build(&table), records);
                self.note_if(piece, end);
            }
            Err(_) => self.note_if(piece, "piece after table"),
        }
    }

    fn note(&mut self, happening: &'static str) {
        *self.counts.entry(happening).or_default() += 1;
    }

    fn note_if(&mut self, happened: bool, happening: &'static str) {
        if happened {
            self.note(happening);
        }
    }

    /// It tells what a piece behind the records meets.
    fn run(&mut self, dag: &Dag, records: &[u8]) -> &'static str {
        let machine = Machine::new(dag);
        let mut record = machine.start().expect("a table's dag keeps the rules");
        let mut records = records.chunks_exact(RECORD);
        let mut answered = BTreeSet::new();
        let mut steps = 0;
        loop {
            while !record.queue.is_empty() {
                if steps == MOST_STEPS {
                    return "piece after limit";
                }
                let before = record.clone();
                let Ok(reply) = machine.step(&mut record, 0) else {
                    return "piece after a refused step";
                };
                self.note_step(dag, &before, &reply, &record);
                steps += 1;
            }
            let Some(next) = records.next() else { return "piece with an empty queue" };
            match delivery(next.try_into().expect("a whole record")) {
                Delivery::Answer { handle, value } => {
                    let accepted = machine.answer(&mut record, handle, value).is_ok();
                    self.note_answer(&record, &mut answered, handle, accepted);
                }
                Delivery::Move { time } => {
                    let before = record.clone();
                    let accepted = machine.advance(&mut record, time).is_ok();
                    self.note_move(&before, &record, time, accepted);
                }
            }
        }
    }

    fn note_answer(
        &mut self,
        record: &Record,
        answered: &mut BTreeSet<u32>,
        handle: u32,
        accepted: bool,
    ) {
        if accepted {
            let later = answered.last().is_some_and(|last| handle < *last);
            self.note("answer accepted");
            self.note_if(later, "answer accepted after one to a later call");
            let due = !record.timers.is_empty();
            self.note_if(due, "answer accepted while a token is due later");
            answered.insert(handle);
        } else if handle >= record.calls {
            self.note("answer refused, not called yet");
        } else if answered.contains(&handle) {
            self.note("answer refused, answered before");
        } else {
            self.note("answer refused, call ended by a choke");
        }
    }

    fn note_move(&mut self, before: &Record, after: &Record, time: u32, accepted: bool) {
        if !accepted {
            return self.note(match time > LAST_TIME {
                true => "clock move refused, out of range",
                false => "clock move refused, back",
            });
        }
        let due = |place: &usize| before.tokens[*place].due_time().expect("a due token");
        let (woken, left): (Vec<usize>, Vec<usize>) =
            before.timers.iter().partition(|place| due(place) <= time);
        let times: Vec<u32> = woken.iter().map(due).collect();
        self.note("clock move accepted");
        self.note_if(time == before.clock, "clock move to the present time");
        self.note_if(time == LAST_TIME, "clock move to the last time");
        let next = before.timers.iter().any(|place| due(place) == time + 1);
        self.note_if(next, "clock move to one before a due time");
        self.note_if(woken.is_empty(), "clock move wakes no token");
        self.note_if(woken.len() == 1, "clock move wakes one token");
        self.note_if(woken.len() > 1, "clock move wakes several tokens");
        let same = times.iter().enumerate().any(|(at, time)| times[..at].contains(time));
        self.note_if(same, "clock move wakes several, due at one time");
        let others = after.queue != woken;
        self.note_if(others, "clock move wakes several, not as they called");
        let some = !woken.is_empty() && !left.is_empty();
        self.note_if(some, "clock move wakes some and leaves some");
    }

    fn note_step(&mut self, dag: &Dag, before: &Record, reply: &Reply, after: &Record) {
        let at = before.queue[0];
        let node = &dag.nodes[before.tokens[at].node];
        match node {
            Node::Unknown => {}
            Node::Stop => self.note("stop"),
            Node::SiteCall { site, .. } => self.note_site_call(before, node, *site, reply),
            Node::DefinitionCall { definition, next, .. } => {
                self.note_definition_call(before, node);
                match dag.only_removes_to_return(*next) {
                    true => self.note_tail_call(dag, before, node, *definition, after),
                    false => self.note_framed_call(dag, before, *next),
                }
            }
            Node::Fork { .. } => self.note("fork"),
            Node::Assign { .. } => self.note("assign"),
            Node::Remove { .. } => self.note("remove"),
            Node::Where { .. } => self.note("where"),
            Node::Choke => self.note_choke(before, after),
            Node::Return => self.note_return(before, after),
            Node::Publish => self.note("publish"),
        }
        let used = after.in_use();
        self.note_if(used.tokens.iter().all(|used| *used), "all 64 tokens in use");
        self.note_if(used.cells.iter().all(|used| *used), "all 32 cells in use");
        self.note_if(after.last_token < before.last_token, "token place given again from 0");
        self.note_if(after.last_cell < before.last_cell, "cell place given again from 0");
    }

    fn note_site_call(&mut self, before: &Record, node: &Node, site: u32, reply: &Reply) {
        let reads = cells_read(before, node).any(|set| set);
        match reply {
            Reply::Waits => {
                self.note("wait");
                self.note_if(site == sites::RWAIT, "rwait, waits for its time");
                let first = cells_read(before, node).next();
                return self.note_if(first == Some(true), "wait behind a parameter that is set");
            }
            _ if site == sites::RWAIT => self.note_rwait(before, node, reply),
            Reply::Ends => self.note("silent built-in"),
            Reply::CallsOut { values, .. } if values.len() == 4 => {
                self.note("outside call");
                self.note("outside call with four values");
            }
            _ if sites::is_outside(site) => self.note("outside call"),
            _ => self.note("value from a built-in"),
        }
        self.note_if(reads, "site call reads a set cell");
    }

    fn note_rwait(&mut self, before: &Record, node: &Node, reply: &Reply) {
        let token = &before.tokens[before.queue[0]];
        let negative = value_of(before, token, &node.parameters()[0]).is_some_and(|time| time < 0);
        match reply {
            Reply::GoesOn => self.note("rwait, 0"),
            Reply::Ends if negative => self.note("rwait, negative"),
            Reply::Ends => self.note("rwait, never due"),
            _ => {
                self.note("rwait, due later");
                self.note_if(before.clock > 0, "rwait, due later, the clock past 0");
            }
        }
    }

    fn note_definition_call(&mut self, before: &Record, node: &Node) {
        self.note("definition call");
        let token = &before.tokens[before.queue[0]];
        let frames = std::iter::successors(token.caller, |at| before.tokens[*at].caller).count();
        self.note_if(frames >= 8, "definition call under 8 frames or more");
        let cells: Vec<bool> = cells_read(before, node).collect();
        self.note_if(cells.contains(&true), "definition call passes a set cell");
        self.note_if(cells.contains(&false), "definition call passes an unset cell");
    }

    /// A call that keeps a frame. In the goal it does so in last place too.
    fn note_framed_call(&mut self, dag: &Dag, before: &Record, next: usize) {
        let in_body = before.tokens[before.queue[0]].caller.is_some();
        self.note_if(in_body, "definition call in a body keeps a frame");
        let last = matches!(dag.nodes[next], Node::Remove { .. } | Node::Publish);
        self.note_if(!in_body && last, "definition call of the goal in last place");
    }

    fn note_tail_call(
        &mut self,
        dag: &Dag,
        before: &Record,
        node: &Node,
        definition: usize,
        after: &Record,
    ) {
        self.note("tail call");
        let token = &before.tokens[before.queue[0]];
        let behind = node.successors()[0].is_some_and(|next| dag.nodes[next] != Node::Return);
        self.note_if(behind, "tail call behind a remove");
        let (used, still) = (before.in_use(), after.in_use());
        let lost = token.bound_cells().any(|cell| used.cells[cell] && !still.cells[cell]);
        self.note_if(lost, "tail call lets a bound cell go out of use");
        let own = body_of(dag, token.node) == body_of(dag, dag.definitions[definition].first);
        self.note_if(!own, "tail call of another definition");
        let cells: Vec<bool> = cells_read(before, node).collect();
        self.note_if(cells.contains(&true), "tail call passes a set cell");
        self.note_if(cells.contains(&false), "tail call passes an unset cell");
        let moved = |(at, parameter): (usize, &Parameter)| match parameter {
            Parameter::Variable(number) => *number != at,
            Parameter::Constant(_) => false,
        };
        let moved = node.parameters().iter().enumerate().any(moved);
        self.note_if(moved, "tail call passes a variable in another place");
        self.note_if(token.cell.is_some(), "tail call under a cell");
        self.note_if(used.tokens.iter().all(|used| *used), "tail call with 64 tokens in use");
    }

    fn note_return(&mut self, before: &Record, after: &Record) {
        self.note("return");
        let frame = before.tokens[before.queue[0]].caller.expect("the rules ask for a frame");
        let left = after.tokens[frame].state == State::Frame;
        self.note_if(left, "return leaves its frame in use");
    }

    fn note_choke(&mut self, before: &Record, after: &Record) {
        self.note("choke");
        let at = before.queue[0];
        let cell = before.tokens[at].cell.expect("the rules ask for a cell");
        self.note_if(after.cells[cell].value.is_some(), "set cell stays in use");
        let mut woken = 0;
        for (place, token) in before.tokens.iter().enumerate() {
            let ended = before.chain(token.cell).any(|above| above == cell) && place != at;
            match token.state {
                State::Ready => self.note_if(ended, "choke ends a ready token"),
                State::CalledOut(_) => self.note_if(ended, "choke ends a called-out token"),
                State::Due(_) => self.note_if(ended, "choke ends a due token"),
                State::Frame => self.note_if(ended, "choke ends a frame"),
                State::Waiting(_) if ended => self.note("choke ends a waiting token"),
                State::Waiting(at) => woken += (at == cell) as usize,
                State::Blank => {}
            }
        }
        self.note_if(woken == 1, "choke wakes one token");
        self.note_if(woken > 1, "choke wakes several tokens");
    }
}

/// The body that has this node: nodes stand body by body, each with its return last.
fn body_of(dag: &Dag, node: usize) -> usize {
    dag.nodes[..node].iter().filter(|node| **node == Node::Return).count()
}

/// For each parameter that is a cell, whether it is set.
fn cells_read<'a>(record: &'a Record, node: &'a Node) -> impl Iterator<Item = bool> + 'a {
    let token = &record.tokens[record.queue[0]];
    node.parameters().iter().filter_map(|parameter| match *parameter {
        Parameter::Variable(number) => match token.bindings[number] {
            Binding::Cell(cell) => Some(record.cells[cell].value.is_some()),
            _ => None,
        },
        Parameter::Constant(_) => None,
    })
}

/// The value of a parameter, if it is there.
fn value_of(record: &Record, token: &Token, parameter: &Parameter) -> Option<i32> {
    match *parameter {
        Parameter::Constant(value) => Some(value),
        Parameter::Variable(number) => match token.bindings[number] {
            Binding::Value(value) => Some(value),
            Binding::Cell(cell) => record.cells[cell].value,
            Binding::Empty => None,
        },
    }
}
