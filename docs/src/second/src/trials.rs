//! The list of cases on given records and dags: for each clause of the index rules one that breaks
//! it alone and one that comes as near without breaking it, and lawful calls of every kind; then
//! words that are no record's, and others that come near.

mod broken_clocks;
mod broken_dags;
mod broken_records;
mod lawful;
mod moves;
mod odd_words;
mod tails;

use crate::dag::{Dag, Definition, Node, Parameter};
use crate::layout::{self, Laid, Order};
use crate::memory::{Call, Case, Memory, Row};
use crate::record::{Binding, Record, State, Token};
use crate::words;

/// What the list says of a case.
#[derive(Clone, Copy, Debug, PartialEq, Eq)]
pub enum Expected {
    /// Every call is refused with 14.
    Broken,
    /// No call is refused with 14.
    Near,
    /// The last call is refused with 14, and no other.
    AtLast,
    /// Every call but the last is refused with 14, and the last is not.
    ButLast,
    /// Every call is refused, all but so many with 14.
    Refused(usize),
}

pub struct Trial {
    pub expected: Expected,
    pub case: Case,
}

impl Trial {
    /// Whether the replies are such as the list says of the case.
    pub fn agrees(&self, refusals: &[Option<u8>]) -> bool {
        let last = refusals.len().checked_sub(1);
        let others = refusals.iter().filter(|number| **number != Some(14)).count();
        match self.expected {
            Expected::Broken => others == 0,
            Expected::Near => others == refusals.len(),
            Expected::AtLast => refusals.iter().position(|number| *number == Some(14)) == last,
            Expected::ButLast => refusals.iter().position(|number| *number != Some(14)) == last,
            Expected::Refused(count) => {
                others == count && refusals.iter().all(|number| number.is_some())
            }
        }
    }
}

pub fn all() -> Vec<Trial> {
    let broken = [broken_dags::list(), broken_records::list(), broken_clocks::list()];
    let rest = [lawful::list(), moves::list(), tails::list(), odd_words::list()];
    broken.into_iter().chain(rest).flatten().collect()
}

/// A dag's words, and a record field by field, in the making.
#[derive(Clone)]
struct Draft {
    words: Vec<u32>,
    record: Record,
    queue: Order,
    waits: Order,
    timers: Order,
}

type Edit = fn(&mut Draft);

fn trial(expected: Expected, name: &str, draft: Draft, calls: &[Call]) -> Trial {
    let calls = calls.iter().map(|call| Row::Call(*call));
    rows(expected, name, draft.set().into_iter().chain(calls))
}

fn rows(expected: Expected, name: &str, rows: impl IntoIterator<Item = Row>) -> Trial {
    let (name, rows) = (name.to_string(), rows.into_iter().collect());
    Trial { expected, case: Case { name, rows } }
}

fn edited(mut draft: Draft, edit: Edit) -> Draft {
    edit(&mut draft);
    draft
}

fn is_set((_, word): &(usize, &u32)) -> bool {
    **word != 0
}

// The dag and the record that most cases change in one place.

const FORK: usize = 0;
const LET: usize = 1;
const OUTSIDE: usize = 2;
const RETURN: usize = 3;
const WHERE: usize = 4;
const REMOVE: usize = 5;
const CHOKE: usize = 6;
const CALL: usize = 7;
const CALL_OUT: usize = 8;
const PUBLISH: usize = 9;
const ASSIGN: usize = 10;
const STOP: usize = 11;
/// One more than the last node.
const NODES: usize = 12;

/// D(a) = let(a) | 16(), goal D(x) <x< 17(5), and an assign and a stop that nothing leads to.
fn base_dag() -> Dag {
    let x = vec![Parameter::Variable(0)];
    let outside = |site, parameters, next| Node::SiteCall { site, parameters, next };
    Dag {
        nodes: vec![
            Node::Fork { left: LET, right: OUTSIDE },
            outside(0, x.clone(), RETURN),
            outside(16, vec![], RETURN),
            Node::Return,
            Node::Where { variable: 0, left: CALL, right: CALL_OUT },
            Node::Remove { variable: 0, next: PUBLISH },
            Node::Choke,
            Node::DefinitionCall { definition: 0, parameters: x, next: REMOVE },
            outside(17, vec![Parameter::Constant(5)], CHOKE),
            Node::Publish,
            Node::Assign { variable: 1, next: REMOVE },
            Node::Stop,
        ],
        definitions: vec![Definition { first: FORK, formals: 1 }],
        goal: WHERE,
    }
}

/// In the middle of a run: token 0 is a frame, 1 called out under cell 0, 2 waits there, 3 is ready.
fn middle() -> Draft {
    let mut draft = Draft { words: words::write(&base_dag()), ..Draft::blank() };
    let mut bound = Token { caller: Some(0), ..Token::BLANK };
    bound.bindings[0] = Binding::Cell(0);
    let record = &mut draft.record;
    record.tokens[0] = Token { node: REMOVE, caller: None, state: State::Frame, ..bound };
    record.tokens[1] =
        Token { node: CHOKE, cell: Some(0), state: State::CalledOut(0), ..Token::BLANK };
    record.tokens[2] = Token { node: LET, state: State::Waiting(0), ..bound };
    record.tokens[3] = Token { node: OUTSIDE, state: State::Ready, ..bound };
    (record.calls, record.last_token, record.last_cell) = (1, 3, 0);
    draft.queue = Order::of([3]);
    draft.waits = Order::of([2]);
    draft
}

/// The same at time 2: token 4, which called first, is due at 9, and token 5 at 7. Token 5 has a
/// caller, which is a frame, and a value.
fn timed() -> Draft {
    let mut draft = middle();
    *draft.token(4) = Token { node: PUBLISH, state: State::Due(9), ..Token::BLANK };
    *draft.token(5) = Token { state: State::Due(7), value: Some(6), ..draft.record.tokens[2] };
    draft.token(5).node = RETURN;
    draft.record.clock = 2;
    draft.timers_are(&[4, 5]);
    draft
}

impl Draft {
    fn blank() -> Draft {
        let Laid { record, queue, waits, timers } = Laid::blank();
        Draft { words: Memory::blank().dag, record, queue, waits, timers }
    }

    fn record_words(&self) -> Vec<u32> {
        let Draft { record, queue, waits, timers, .. } = self.clone();
        layout::write(&Laid { record, queue, waits, timers })
    }

    /// The rows that set the words, all being 0 before.
    fn set(&self) -> Vec<Row> {
        let dag = self.words.iter().enumerate().filter(is_set);
        let record = self.record_words();
        let record = record.iter().enumerate().filter(is_set);
        dag.map(|(index, word)| Row::Dag(index, *word))
            .chain(record.map(|(index, word)| Row::Record(index, *word)))
            .collect()
    }

    /// The rows that set the record's words to 0 again.
    fn clear(&self) -> Vec<Row> {
        let record = self.record_words();
        let record = record.iter().enumerate().filter(is_set);
        record.map(|(index, _)| Row::Record(index, 0)).collect()
    }

    fn token(&mut self, place: usize) -> &mut Token {
        &mut self.record.tokens[place]
    }

    fn bind(&mut self, place: usize, slot: usize, binding: Binding) {
        self.token(place).bindings[slot] = binding;
    }

    fn set_cell(&mut self, place: usize, value: i32) {
        self.record.cells[place].value = Some(value);
    }

    fn parent(&mut self, place: usize, parent: usize) {
        self.record.cells[place].parent = Some(parent);
    }

    fn queue_is(&mut self, places: &[u8]) {
        self.queue = Order::of(places.iter().map(|place| *place as usize));
    }

    fn waits_are(&mut self, places: &[u8]) {
        self.waits = Order::of(places.iter().map(|place| *place as usize));
    }

    fn timers_are(&mut self, places: &[u8]) {
        self.timers = Order::of(places.iter().map(|place| *place as usize));
    }

    /// The token falls due at this time.
    fn due(&mut self, place: usize, time: u32) {
        self.token(place).state = State::Due(time);
    }

    /// The ready token 3 stands at this node, with or without a value.
    fn stands_at(&mut self, node: usize, value: Option<i32>) {
        (self.token(3).node, self.token(3).value) = (node, value);
    }

    /// Another ready token like 3, at this place and behind in the queue.
    fn ready_too(&mut self, place: u8) {
        *self.token(place as usize) = self.record.tokens[3];
        self.queue.names[self.queue.count as usize] = place as u32;
        self.queue.count += 1;
    }

    /// One word of a node.
    fn word(&mut self, node: usize, index: usize, word: u32) {
        self.words[words::HEAD + words::ROW * node + index] = word;
    }

    fn node(&mut self, number: usize, node: Node) {
        for (index, word) in words::node_words(&node).into_iter().enumerate() {
            self.word(number, index, word);
        }
    }
}

fn site(site: u32, parameters: &[Parameter], next: usize) -> Node {
    Node::SiteCall { site, parameters: parameters.to_vec(), next }
}

fn variable(number: usize) -> Parameter {
    Parameter::Variable(number)
}

fn constant(value: i32) -> Parameter {
    Parameter::Constant(value)
}
