//! orcrun: input bytes to output lines.

use crate::dag::{self, Dag};
use crate::machine::{Machine, Reply};
use crate::record::Record;
use crate::table;

pub const MOST_INPUT: usize = 65_536;
pub const MOST_STEPS: u32 = 100_000;
pub const RECORD: usize = 8;

/// A record with this handle moves the clock.
pub const CLOCK: u32 = u32::MAX;

/// What a record of the input delivers.
pub enum Delivery {
    Answer { handle: u32, value: i32 },
    Move { time: u32 },
}

/// Handle and value; of a clock move the value is the time, and has no sign.
pub fn delivery([a, b, c, d, e, f, g, h]: [u8; RECORD]) -> Delivery {
    let (handle, value) = (u32::from_le_bytes([a, b, c, d]), [e, f, g, h]);
    match handle {
        CLOCK => Delivery::Move { time: u32::from_le_bytes(value) },
        _ => Delivery::Answer { handle, value: i32::from_le_bytes(value) },
    }
}

/// All lines for this input, each with its line feed.
pub fn orcrun(input: &[u8]) -> String {
    let mut lines = String::new();
    if input.len() > MOST_INPUT {
        say(&mut lines, "long");
        return lines;
    }
    let (bytes, records) = input.split_at(table::length_in(input));
    match table::read(bytes) {
        Ok(table) => run(&dag::build(&table), records, &mut lines),
        Err(refusal) => say(&mut lines, &format!("table {} {}", refusal.number, refusal.entry)),
    }
    lines
}

fn say(lines: &mut String, line: &str) {
    lines.push_str(line);
    lines.push('\n');
}

/// Steps while a token is ready, and delivers a record when none is.
fn run(dag: &Dag, mut records: &[u8], lines: &mut String) {
    let machine = Machine::new(dag);
    let mut steps = 0;
    match machine.start() {
        Ok(mut record) => loop {
            let go_on = if record.queue.is_empty() {
                deliver(&machine, &mut record, &mut records, lines)
            } else {
                step(&machine, &mut record, &mut steps, lines)
            };
            if !go_on {
                break;
            }
        },
        Err(refused) => say(lines, &format!("refused {}", refused.number)),
    }
    say(lines, &format!("end {steps}"));
}

/// One step in house order. It tells whether the run goes on.
fn step(machine: &Machine, record: &mut Record, steps: &mut u32, lines: &mut String) -> bool {
    if *steps == MOST_STEPS {
        say(lines, "limit");
        return false;
    }
    match machine.step(record, 0) {
        Ok(reply) => {
            *steps += 1;
            report(&reply, lines);
            true
        }
        Err(refused) => {
            say(lines, &format!("refused {}", refused.number));
            false
        }
    }
}

fn report(reply: &Reply, lines: &mut String) {
    match reply {
        Reply::CallsOut { handle, site, values } => {
            let values: String = values.iter().map(|value| format!(" {value}")).collect();
            say(lines, &format!("call {handle} {site}{values}"));
        }
        Reply::Publishes(value) => say(lines, &format!("publish {value}")),
        Reply::GoesOn | Reply::Waits | Reply::FallsDue | Reply::Ends => {}
    }
}

/// Takes the next record from the input. A refused answer or clock move does not end the run.
fn deliver(
    machine: &Machine,
    record: &mut Record,
    records: &mut &[u8],
    lines: &mut String,
) -> bool {
    let Some((next, rest)) = records.split_first_chunk::<RECORD>() else {
        if !records.is_empty() {
            say(lines, "short");
        }
        return false;
    };
    *records = rest;
    let delivered = match delivery(*next) {
        Delivery::Answer { handle, value } => machine.answer(record, handle, value),
        Delivery::Move { time } => machine.advance(record, time),
    };
    if let Err(refused) = delivered {
        say(lines, &format!("refused {}", refused.number));
    }
    true
}
