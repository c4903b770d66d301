//! What a call on lent words does, as lines: the reply, then the record field by field, or word by
//! word where the words are no record's.

use crate::layout::{self, Laid, Order};
use crate::machine::{Refused, Reply};
use crate::memory::{Call, Case, Memory, Row};
use crate::record::{Binding, Cell, State, Token};
use std::fmt::Write;

/// The lines of all calls of a case, and the number of each reply that is a refusal.
pub fn lines(case: &Case) -> (String, Vec<Option<u8>>) {
    let mut memory = Memory::blank();
    let mut text = String::new();
    let mut numbers = Vec::new();
    for row in &case.rows {
        let reply = memory.act(*row);
        if let (Row::Call(call), Some(reply)) = (row, reply) {
            numbers.push(reply.as_ref().err().map(|refused| refused.number));
            let line = format!("{}, {}: {}", case.name, called(*call), replied(&reply));
            text += &format!("{line}\n{}", words(&memory.record));
        }
    }
    (text, numbers)
}

fn called(call: Call) -> String {
    match call {
        Call::Start => "start".to_string(),
        Call::Step(place) => format!("step {place}"),
        Call::Answer(handle, value) => format!("answer {handle} {value}"),
        Call::Advance(time) => format!("advance {time}"),
    }
}

fn replied(reply: &Result<Reply, Refused>) -> String {
    match reply {
        Ok(Reply::GoesOn | Reply::FallsDue | Reply::Ends) => "done".to_string(),
        Ok(Reply::Waits) => "waits".to_string(),
        Ok(Reply::Publishes(value)) => format!("publish {value}"),
        Ok(Reply::CallsOut { handle, site, values }) => {
            let mut text = format!("call {handle} {site} {}", values.len());
            if values.iter().any(|value| *value != 0) {
                let mut four = values.clone();
                four.resize(4, 0);
                text += " values";
                four.iter().for_each(|value| write!(text, " {value}").expect("a string"));
            }
            text
        }
        Err(refused) => format!("refused {}", refused.number),
    }
}

/// The record that the words are, or with its index each word that is not 0.
fn words(words: &[u32]) -> String {
    if layout::is_record(words) {
        return record(&layout::read(words));
    }
    let mut text = "  words".to_string();
    for (index, word) in words.iter().enumerate().filter(|(_, word)| **word != 0) {
        write!(text, " {index}:{word}").expect("a string");
    }
    text + "\n"
}

/// Every field that is not blank.
fn record(Laid { record, queue, waits, timers }: &Laid) -> String {
    let mut text = String::new();
    for (place, token) in record.tokens.iter().enumerate() {
        if *token != Token::BLANK {
            text += &format!("  token {place}{}\n", token_fields(token));
        }
    }
    for (place, cell) in record.cells.iter().enumerate() {
        if *cell != Cell::BLANK {
            let parent = named(" parent", cell.parent);
            text += &format!("  cell {place}{parent}{}\n", named(" value", cell.value));
        }
    }
    text += &order("queue", queue);
    text += &order("waits", waits);
    text += &order("timers", timers);
    let places = format!("newtoken {} newcell {}", record.last_token, record.last_cell);
    text + &format!("  calls {} {places} clock {}\n", record.calls, record.clock)
}

fn token_fields(token: &Token) -> String {
    let mut text = match token.state {
        State::Blank => " blank".to_string(),
        State::Ready => " ready".to_string(),
        State::Waiting(cell) => format!(" waiting {cell}"),
        State::CalledOut(handle) => format!(" called {handle}"),
        State::Due(time) => format!(" due {time}"),
        State::Frame => " frame".to_string(),
    };
    text += &format!(" node {}", token.node);
    text += &named(" value", token.value);
    text += &named(" caller", token.caller);
    text += &named(" cell", token.cell);
    for (slot, binding) in token.bindings.iter().enumerate() {
        match binding {
            Binding::Empty => {}
            Binding::Value(value) => text += &format!(" x{slot} {value}"),
            Binding::Cell(cell) => text += &format!(" x{slot} cell {cell}"),
        }
    }
    text
}

fn named<T: std::fmt::Display>(name: &str, what: Option<T>) -> String {
    what.map(|what| format!("{name} {what}")).unwrap_or_default()
}

/// The count, the names that count, and with its index each other word that is not 0.
fn order(name: &str, order: &Order) -> String {
    let mut text = format!("  {name} {}:", order.count);
    for (place, word) in order.names.iter().enumerate() {
        if (place as u32) < order.count {
            text += &format!(" {word}");
        } else if *word != 0 {
            text += &format!(" behind {place} {word}");
        }
    }
    text + "\n"
}
