//! Runs of the twin by its public calls.

use std::hint::black_box;
use twin::lines::table_of;
use twin::machine::{answer, start, step, Reply};
use twin::record::Machine;
use twin::table::{load, Dag, WORDS};

/// The dag of a job's table.
pub fn loaded(job: &[u8]) -> Box<Dag> {
    let mut dag = Box::new([0; WORDS]);
    load(table_of(job), &mut dag).expect("a lawful table");
    dag
}

/// The start and so many calls at most: the step at place 0 or, with the queue empty, an answer to the next handle.
pub fn calls(machine: &mut Machine, dag: &Dag, handles: &[u32], most: u32) -> u32 {
    start(machine, dag);
    let mut handles = handles.iter();
    for n in 0..most {
        if machine.queue.count > 0 {
            black_box(step(machine, dag, 0));
        } else {
            let Some(&handle) = handles.next() else { return n };
            black_box(answer(machine, dag, handle, 7));
        }
    }
    most
}

/// Is the call with this number an answer? With the queue empty it is.
pub fn is_answer(dag: &Dag, handles: &[u32], number: usize) -> bool {
    let mut machine = Machine::BLANK;
    calls(&mut machine, dag, handles, number as u32);
    machine.queue.count == 0
}

/// Tokens in use and tokens ready, as means over the first steps.
pub fn tokens_in_use(dag: &Dag, steps: usize) -> (f64, f64) {
    let mut machine = Machine::BLANK;
    start(&mut machine, dag);
    let (mut used, mut ready) = (0, 0);
    for _ in 0..steps {
        let reply = step(&mut machine, dag, 0);
        assert!(!matches!(reply, Reply::Refused(_)), "{reply:?}");
        used += machine.used(u64::MAX).tokens.count_ones();
        ready += machine.queue.count;
    }
    (used as f64 / steps as f64, ready as f64 / steps as f64)
}
