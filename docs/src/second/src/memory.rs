//! A dag and a record as a host could lend them, words that are lawful or not, and the machine's
//! calls on them.
//!
//! As bytes they are rows of eight: what the row does, a place, which one of it (two bytes), and a
//! number (four bytes), all little-endian. A word that no row sets is 0.

use crate::layout::{self, Laid};
use crate::machine::{Machine, Refused, Reply};
use crate::record::{Record, PAPER};
use crate::rules;
use crate::words;

/// The words of the dag and those of the record.
#[derive(Clone, Debug, PartialEq, Eq)]
pub struct Memory {
    pub dag: Vec<u32>,
    pub record: Vec<u32>,
}

#[derive(Clone, Copy, Debug, PartialEq, Eq)]
pub enum Call {
    Start,
    Step(u32),
    Answer(u32, i32),
    Advance(u32),
}

/// What a host does: it writes a word, at an index, or makes a call.
#[derive(Clone, Copy, Debug, PartialEq, Eq)]
pub enum Row {
    Dag(usize, u32),
    Record(usize, u32),
    Call(Call),
}

/// A case: its name, and what is done, one after another.
#[derive(Clone, Debug, PartialEq, Eq)]
pub struct Case {
    pub name: String,
    pub rows: Vec<Row>,
}

pub const NO_RECORD: Refused = Refused { number: 14, why: "words that no record is written as" };
const BROKEN_ORDER: Refused = Refused { number: 14, why: "an order's count, or a word behind it" };
const BROKEN_COUNT: Refused = Refused { number: 14, why: "counts of the dag" };

impl Memory {
    pub fn blank() -> Memory {
        Memory { dag: vec![0; words::WORDS], record: vec![0; layout::WORDS] }
    }

    /// Sets a word, or makes a call; `None` where a word is set.
    pub fn act(&mut self, row: Row) -> Option<Result<Reply, Refused>> {
        match row {
            Row::Dag(index, word) => self.dag[index] = word,
            Row::Record(index, word) => self.record[index] = word,
            Row::Call(call) => return Some(self.call(call)),
        }
        None
    }

    /// Makes a call. A refused one leaves every word.
    pub fn call(&mut self, call: Call) -> Result<Reply, Refused> {
        let dag = words::read(&self.dag).ok_or(BROKEN_COUNT);
        let (record, reply) = match call {
            Call::Start => (Machine::new(&dag?).start()?, Reply::GoesOn),
            Call::Step(place) => {
                let mut record = self.taken()?;
                let reply = Machine::new(&dag?).step(&mut record, place as usize)?;
                (record, reply)
            }
            Call::Answer(handle, value) => {
                let mut record = self.taken()?;
                Machine::new(&dag?).answer(&mut record, handle, value)?;
                (record, Reply::GoesOn)
            }
            Call::Advance(time) => {
                let mut record = self.taken()?;
                Machine::new(&dag?).advance(&mut record, time)?;
                (record, Reply::GoesOn)
            }
        };
        self.record = layout::write(&Laid::of(record));
        Ok(reply)
    }

    /// The clauses of the index rules that are broken by what the words say, and before them that
    /// the words are no record's.
    pub fn broken(&self) -> Vec<&'static str> {
        let dag = words::read(&self.dag).ok_or(BROKEN_COUNT);
        let record = layout::read(&self.record).taken().ok_or(BROKEN_ORDER);
        let mut names = match dag.and_then(|dag| Ok((dag, record?))) {
            Ok((dag, record)) => rules::all_broken(&dag, &record, &PAPER),
            Err(refused) => vec![refused.why],
        };
        if !layout::is_record(&self.record) {
            names.insert(0, NO_RECORD.why);
        }
        names
    }

    /// The record of the words, if they are one's and its orders are arrays with their counts.
    fn taken(&self) -> Result<Record, Refused> {
        if !layout::is_record(&self.record) {
            return Err(NO_RECORD);
        }
        layout::read(&self.record).taken().ok_or(BROKEN_ORDER)
    }
}

/// The first byte of a row.
const DAG: u8 = 0;
const RECORD: u8 = 1;
const START: u8 = 16;
const STEP: u8 = 17;
const ANSWER: u8 = 18;
const ADVANCE: u8 = 19;

impl Row {
    fn bytes(self) -> [u8; 8] {
        let (what, place, which, number) = match self {
            Row::Dag(index, word) => (DAG, 0, index as u16, word),
            Row::Record(index, word) => (RECORD, 0, index as u16, word),
            Row::Call(Call::Start) => (START, 0, 0, 0),
            Row::Call(Call::Step(place)) => (STEP, 0, 0, place),
            Row::Call(Call::Answer(handle, value)) => {
                (ANSWER, (handle >> 16) as u8, handle as u16, value as u32)
            }
            Row::Call(Call::Advance(time)) => (ADVANCE, 0, 0, time),
        };
        let ([a, b], [c, d, e, f]) = (which.to_le_bytes(), number.to_le_bytes());
        [what, place, a, b, c, d, e, f]
    }

    /// The row of these bytes, or `None` where they are none.
    fn read(bytes: [u8; 8]) -> Option<Row> {
        let [what, place, a, b, c, d, e, f] = bytes;
        let which = u16::from_le_bytes([a, b]);
        let number = u32::from_le_bytes([c, d, e, f]);
        let index = |most: usize| Some(which as usize).filter(|index| *index < most);
        let row = match what {
            DAG => Row::Dag(index(words::WORDS)?, number),
            RECORD => Row::Record(index(layout::WORDS)?, number),
            START => Row::Call(Call::Start),
            STEP => Row::Call(Call::Step(number)),
            ANSWER => {
                let handle = u32::from(place) << 16 | u32::from(which);
                Row::Call(Call::Answer(handle, number as i32))
            }
            ADVANCE => Row::Call(Call::Advance(number)),
            _ => return None,
        };
        Some(row)
    }
}

impl Case {
    /// The name behind its length, then the rows.
    pub fn bytes(&self) -> Vec<u8> {
        let mut bytes = vec![self.name.len() as u8];
        bytes.extend(self.name.as_bytes());
        self.rows.iter().for_each(|row| bytes.extend(row.bytes()));
        bytes
    }

    /// The case of these bytes, or `None` where they are none.
    pub fn read(bytes: &[u8]) -> Option<Case> {
        let (length, rest) = bytes.split_first()?;
        let (name, rest) = rest.split_at_checked(*length as usize)?;
        let name = String::from_utf8(name.to_vec()).ok()?;
        let rows = rest.chunks(8).map(|row| Row::read(row.try_into().ok()?));
        Some(Case { name, rows: rows.collect::<Option<_>>()? })
    }
}
