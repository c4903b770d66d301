//! The machine's record as the words that a host lends (docs/DECISIONS.md has the table): 24 for each
//! token, 4 for each cell, two orders and five counts, then the order of call, its count and the
//! clock.

use crate::record::{Binding, Cell, Record, State, Token, PAPER};

pub const WORDS: usize = 1863;
pub const TOKEN: usize = 24;
pub const CELL: usize = 4;
/// Where the parts begin; the tokens do at 0.
pub const CELLS: usize = 1536;
pub const QUEUE: usize = 1664;
pub const WAITS: usize = 1728;
pub const QUEUED: usize = 1792;
pub const WAITING: usize = 1793;
pub const CALLS: usize = 1794;
pub const LAST_TOKEN: usize = 1795;
pub const LAST_CELL: usize = 1796;
pub const TIMERS: usize = 1797;
pub const TIMED: usize = 1861;
pub const CLOCK: usize = 1862;

/// An order as it lies in the record: an array of places, and how many of them count.
#[derive(Clone, Debug, PartialEq, Eq)]
pub struct Order {
    pub names: [u32; 64],
    pub count: u32,
}

impl Order {
    pub const EMPTY: Order = Order { names: [0; 64], count: 0 };

    pub fn of(places: impl IntoIterator<Item = usize>) -> Order {
        let mut order = Order::EMPTY;
        for place in places {
            order.names[order.count as usize] = place as u32;
            order.count += 1;
        }
        order
    }

    /// The places named, or `None` where the count is too large or a word behind them is not 0.
    pub fn places(&self) -> Option<Vec<usize>> {
        let (named, behind) = self.names.split_at_checked(self.count as usize)?;
        let blank = behind.iter().all(|name| *name == 0);
        blank.then(|| named.iter().map(|name| *name as usize).collect())
    }
}

/// A record whose orders are the arrays that lie in the words.
#[derive(Clone, Debug, PartialEq, Eq)]
pub struct Laid {
    /// Its own orders stay empty.
    pub record: Record,
    pub queue: Order,
    pub waits: Order,
    pub timers: Order,
}

impl Laid {
    /// Nothing but zeros.
    pub fn blank() -> Laid {
        let record = Record { last_cell: 0, ..Record::blank(&PAPER) };
        Laid { record, queue: Order::EMPTY, waits: Order::EMPTY, timers: Order::EMPTY }
    }

    pub fn of(mut record: Record) -> Laid {
        let queue = Order::of(std::mem::take(&mut record.queue));
        let waits = Order::of(std::mem::take(&mut record.waits));
        let timers = Order::of(std::mem::take(&mut record.timers));
        Laid { record, queue, waits, timers }
    }

    /// The record with its orders taken from the arrays.
    pub fn taken(&self) -> Option<Record> {
        let (queue, waits) = (self.queue.places()?, self.waits.places()?);
        let timers = self.timers.places()?;
        Some(Record { queue, waits, timers, ..self.record.clone() })
    }
}

/// Whether the words are some record's: those that its fields are written as.
pub fn is_record(words: &[u32]) -> bool {
    write(&read(words)) == words
}

/// What the words say. A kind above the last one counts as the last.
pub fn read(words: &[u32]) -> Laid {
    let record = Record {
        tokens: words[..CELLS].chunks(TOKEN).map(read_token).collect(),
        cells: words[CELLS..QUEUE].chunks(CELL).map(read_cell).collect(),
        queue: vec![],
        waits: vec![],
        timers: vec![],
        calls: words[CALLS],
        last_token: words[LAST_TOKEN] as usize,
        last_cell: words[LAST_CELL] as usize,
        clock: words[CLOCK],
    };
    let order = |from: usize, count: usize| {
        let mut order = Order { count: words[count], ..Order::EMPTY };
        order.names.copy_from_slice(&words[from..from + 64]);
        order
    };
    let (queue, waits) = (order(QUEUE, QUEUED), order(WAITS, WAITING));
    Laid { record, queue, waits, timers: order(TIMERS, TIMED) }
}

fn read_token(row: &[u32]) -> Token {
    let mut bindings = Token::BLANK.bindings;
    for (binding, pair) in bindings.iter_mut().zip(row[8..].chunks(2)) {
        *binding = match pair[0] {
            0 => Binding::Empty,
            1 => Binding::Value(pair[1] as i32),
            _ => Binding::Cell(pair[1] as usize),
        };
    }
    let state = match row[0] {
        0 => State::Blank,
        1 => State::Ready,
        2 => State::Waiting(row[1] as usize),
        3 => State::CalledOut(row[1]),
        4 => State::Due(row[1]),
        _ => State::Frame,
    };
    let (value, caller, cell) = (value(row[5], row[6]), place(row[3]), place(row[4]));
    Token { node: row[2] as usize, bindings, value, caller, cell, state }
}

fn read_cell(row: &[u32]) -> Cell {
    Cell { parent: place(row[0]), value: value(row[1], row[2]) }
}

fn place(word: u32) -> Option<usize> {
    word.checked_sub(1).map(|place| place as usize)
}

fn value(there: u32, word: u32) -> Option<i32> {
    (there != 0).then_some(word as i32)
}

/// The words that the record is written as.
pub fn write(laid: &Laid) -> Vec<u32> {
    let Laid { record, queue, waits, timers } = laid;
    let mut words = Vec::with_capacity(WORDS);
    record.tokens.iter().for_each(|token| words.extend(token_words(token)));
    record.cells.iter().for_each(|cell| words.extend(cell_words(cell)));
    words.extend(queue.names.iter().chain(&waits.names));
    words.extend([queue.count, waits.count, record.calls]);
    words.extend([record.last_token, record.last_cell].map(|place| place as u32));
    words.extend(timers.names);
    words.extend([timers.count, record.clock]);
    words
}

fn token_words(token: &Token) -> [u32; TOKEN] {
    let mut row = [0; TOKEN];
    (row[0], row[1]) = match token.state {
        State::Blank => (0, 0),
        State::Ready => (1, 0),
        State::Waiting(cell) => (2, cell as u32),
        State::CalledOut(handle) => (3, handle),
        State::Due(time) => (4, time),
        State::Frame => (5, 0),
    };
    row[2] = token.node as u32;
    (row[3], row[4]) = (place_word(token.caller), place_word(token.cell));
    (row[5], row[6]) = value_words(token.value);
    for (pair, binding) in row[8..].chunks_mut(2).zip(&token.bindings) {
        (pair[0], pair[1]) = match *binding {
            Binding::Empty => (0, 0),
            Binding::Value(value) => (1, value as u32),
            Binding::Cell(cell) => (2, cell as u32),
        };
    }
    row
}

fn cell_words(cell: &Cell) -> [u32; CELL] {
    let (there, value) = value_words(cell.value);
    [place_word(cell.parent), there, value, 0]
}

fn place_word(place: Option<usize>) -> u32 {
    place.map_or(0, |place| place as u32 + 1)
}

fn value_words(value: Option<i32>) -> (u32, u32) {
    value.map_or((0, 0), |value| (1, value as u32))
}
