//! Start, step, answer and clock move.
//!
//! A step works on a copy of the record and hands it over only when it is accepted, so a refused
//! one leaves everything as it was; an answer and a clock move change nothing before their tests
//! are done.

use crate::dag::{Dag, Node, Parameter};
use crate::record::{Binding, Cell, InUse, Limits, Record, State, Token, LAST_TIME, PAPER};
use crate::rules;
use crate::sites;

/// A refused call: the paper's number, and the reason in words.
#[derive(Clone, Copy, Debug, PartialEq, Eq)]
pub struct Refused {
    pub number: u8,
    pub why: &'static str,
}

const NO_READY: Refused = Refused { number: 9, why: "no ready token at this place of the queue" };
const TOKENS_FULL: Refused = Refused { number: 10, why: "all token places are in use" };
const CELLS_FULL: Refused = Refused { number: 11, why: "all cell places are in use" };
const NOT_OPEN: Refused = Refused { number: 12, why: "the handle is not open" };
const CALLS_FULL: Refused = Refused { number: 13, why: "all outside calls are made" };
const NOT_AHEAD: Refused =
    Refused { number: 15, why: "the clock would go back or leave its range" };

/// What an accepted step tells.
#[derive(Clone, Debug, PartialEq, Eq)]
pub enum Reply {
    /// The token, or what it became, is ready again.
    GoesOn,
    Waits,
    /// The token is due later.
    FallsDue,
    Ends,
    CallsOut {
        handle: u32,
        site: u32,
        values: Vec<i32>,
    },
    Publishes(i32),
}

/// A dag and the limits under which it runs. The record is kept by the caller.
pub struct Machine<'a> {
    pub dag: &'a Dag,
    pub limits: Limits,
}

/// All values of a call, or the unset cell that it waits for.
enum Values {
    There(Vec<i32>),
    Missing(usize),
}

impl<'a> Machine<'a> {
    pub fn new(dag: &'a Dag) -> Machine<'a> {
        Machine { dag, limits: PAPER }
    }

    /// One ready token at the goal, with nothing bound, no value, no caller, under the root.
    pub fn start(&self) -> Result<Record, Refused> {
        if let Some(why) = rules::broken_in_dag(self.dag) {
            return Err(Refused { number: 14, why });
        }
        let mut record = Record::blank(&self.limits);
        record.tokens[0] = Token { node: self.dag.goal, state: State::Ready, ..Token::BLANK };
        record.queue.push(0);
        Ok(record)
    }

    /// Lets the ready token at this place of the queue act.
    pub fn step(&self, record: &mut Record, place: usize) -> Result<Reply, Refused> {
        self.check_rules(record)?;
        let at = *record.queue.get(place).ok_or(NO_READY)?;
        let used = record.in_use();
        let mut after = record.clone();
        after.queue.remove(place);
        let reply = self.act(&mut after, at, &used)?;
        after.sweep();
        *record = after;
        Ok(reply)
    }

    /// Gives the token called out under this handle its value.
    pub fn answer(&self, record: &mut Record, handle: u32, value: i32) -> Result<(), Refused> {
        self.check_rules(record)?;
        let called = |token: &Token| token.state == State::CalledOut(handle);
        let at = record.tokens.iter().position(called).ok_or(NOT_OPEN)?;
        record.tokens[at].value = Some(value);
        make_ready(record, at);
        record.sweep();
        Ok(())
    }

    /// Moves the clock to this time, which may be the present one. Tokens that are now due become
    /// ready with value 0, by due time, then by order of call.
    pub fn advance(&self, record: &mut Record, time: u32) -> Result<(), Refused> {
        self.check_rules(record)?;
        if time < record.clock || time > LAST_TIME {
            return Err(NOT_AHEAD);
        }
        record.clock = time;
        let called = std::mem::take(&mut record.timers).into_iter();
        let by_time = called.map(|at| (record.tokens[at].due_time(), at));
        let (mut woken, later): (Vec<_>, Vec<_>) = by_time.partition(|(due, _)| *due <= Some(time));
        record.timers = later.into_iter().map(|(_, at)| at).collect();
        // The sort is stable: those due at one time stay in the order of call.
        woken.sort_by_key(|(due, _)| *due);
        for (_, at) in woken {
            record.tokens[at].value = Some(0);
            make_ready(record, at);
        }
        record.sweep();
        Ok(())
    }

    fn check_rules(&self, record: &Record) -> Result<(), Refused> {
        match rules::broken(self.dag, record, &self.limits) {
            Some(why) => Err(Refused { number: 14, why }),
            None => Ok(()),
        }
    }

    /// The token at this place has left the queue; `used` is what was in use before the call.
    fn act(&self, record: &mut Record, at: usize, used: &InUse) -> Result<Reply, Refused> {
        match &self.dag.nodes[record.tokens[at].node] {
            Node::Fork { left, right } => fork(record, at, used, *left, *right),
            Node::Where { variable, left, right } => {
                where_(record, at, used, *variable, (*left, *right))
            }
            Node::Assign { variable, next } => {
                let value = record.tokens[at].value.expect("the rules ask for a value");
                Ok(bind(record, at, *variable, Binding::Value(value), *next))
            }
            Node::Remove { variable, next } => {
                Ok(bind(record, at, *variable, Binding::Empty, *next))
            }
            Node::SiteCall { site, parameters, next } => {
                self.site_call(record, at, *site, parameters, *next)
            }
            Node::DefinitionCall { definition, parameters, next } => {
                let first = self.dag.definitions[*definition].first;
                match self.dag.only_removes_to_return(*next) {
                    true => Ok(tail_call(record, at, first, parameters)),
                    false => definition_call(record, at, used, first, parameters, *next),
                }
            }
            Node::Return => Ok(return_(record, at)),
            Node::Choke => Ok(choke(record, at)),
            Node::Publish => {
                let value = record.tokens[at].value.expect("the rules ask for a value");
                end(record, at);
                Ok(Reply::Publishes(value))
            }
            Node::Stop | Node::Unknown => {
                end(record, at);
                Ok(Reply::Ends)
            }
        }
    }

    fn site_call(
        &self,
        record: &mut Record,
        at: usize,
        site: u32,
        parameters: &[Parameter],
        next: usize,
    ) -> Result<Reply, Refused> {
        let values = match values(record, &record.tokens[at], parameters) {
            Values::There(values) => values,
            Values::Missing(cell) => {
                record.tokens[at].state = State::Waiting(cell);
                record.waits.push(at);
                return Ok(Reply::Waits);
            }
        };
        if sites::is_outside(site) {
            return self.call_out(record, at, site, values, next);
        }
        if site == sites::RWAIT {
            return Ok(rwait(record, at, values[0], next));
        }
        match sites::built_in(site, &values) {
            Some(value) => Ok(give(record, at, value, next)),
            None => {
                end(record, at);
                Ok(Reply::Ends)
            }
        }
    }

    fn call_out(
        &self,
        record: &mut Record,
        at: usize,
        site: u32,
        values: Vec<i32>,
        next: usize,
    ) -> Result<Reply, Refused> {
        if record.calls >= self.limits.calls {
            return Err(CALLS_FULL);
        }
        let handle = record.calls;
        record.calls += 1;
        record.tokens[at].node = next;
        record.tokens[at].state = State::CalledOut(handle);
        Ok(Reply::CallsOut { handle, site, values })
    }
}

/// The parameters in order, up to the first cell that is not set.
fn values(record: &Record, token: &Token, parameters: &[Parameter]) -> Values {
    let mut values = Vec::new();
    for parameter in parameters {
        match binding(token, parameter) {
            Binding::Value(value) => values.push(value),
            Binding::Cell(cell) => match record.cells[cell].value {
                Some(value) => values.push(value),
                None => return Values::Missing(cell),
            },
            Binding::Empty => unreachable!("the rules ask for no empty variable at a call"),
        }
    }
    Values::There(values)
}

/// A parameter as a binding: a constant is a value, a variable's binding stays as it is.
fn binding(token: &Token, parameter: &Parameter) -> Binding {
    match *parameter {
        Parameter::Variable(number) => token.bindings[number],
        Parameter::Constant(value) => Binding::Value(value),
    }
}

/// A built-in replies at once.
fn give(record: &mut Record, at: usize, value: i32, next: usize) -> Reply {
    record.tokens[at].value = Some(value);
    record.tokens[at].node = next;
    make_ready(record, at);
    Reply::GoesOn
}

/// For 0 it replies at once, for more the token falls due later. It is silent for less, and where
/// the due time would be out of range.
fn rwait(record: &mut Record, at: usize, time: i32, next: usize) -> Reply {
    let due = u32::try_from(time).ok().and_then(|time| record.clock.checked_add(time));
    match due.filter(|due| *due <= LAST_TIME) {
        Some(due) if due == record.clock => give(record, at, 0, next),
        Some(due) => {
            record.tokens[at].node = next;
            record.tokens[at].state = State::Due(due);
            record.timers.push(at);
            Reply::FallsDue
        }
        None => {
            end(record, at);
            Reply::Ends
        }
    }
}

fn make_ready(record: &mut Record, at: usize) {
    record.tokens[at].state = State::Ready;
    record.queue.push(at);
}

fn end(record: &mut Record, at: usize) {
    record.tokens[at] = Token::BLANK;
}

/// The next free place after the last one given, round from the end to 0.
fn free_place(used: &[bool], last: usize) -> Option<usize> {
    (1..=used.len()).map(|ahead| (last + ahead) % used.len()).find(|place| !used[*place])
}

/// Puts a ready token at the next free place. It is not yet in the queue.
fn new_token(record: &mut Record, used: &InUse, token: Token) -> Result<usize, Refused> {
    let place = free_place(&used.tokens, record.last_token).ok_or(TOKENS_FULL)?;
    record.tokens[place] = token;
    record.last_token = place;
    Ok(place)
}

fn fork(
    record: &mut Record,
    at: usize,
    used: &InUse,
    left: usize,
    right: usize,
) -> Result<Reply, Refused> {
    let token = record.tokens[at];
    let new = new_token(record, used, Token { node: right, ..token })?;
    record.tokens[at].node = left;
    make_ready(record, at);
    make_ready(record, new);
    Ok(Reply::GoesOn)
}

fn where_(
    record: &mut Record,
    at: usize,
    used: &InUse,
    variable: usize,
    (left, right): (usize, usize),
) -> Result<Reply, Refused> {
    let token = record.tokens[at];
    // Tokens are tested before cells. The cell of the right side is filled in below.
    let new = new_token(record, used, Token { node: right, ..token })?;
    let cell = free_place(&used.cells, record.last_cell).ok_or(CELLS_FULL)?;
    record.last_cell = cell;
    record.cells[cell] = Cell { parent: token.cell, value: None };
    record.tokens[new].cell = Some(cell);
    record.tokens[at].node = left;
    record.tokens[at].bindings[variable] = Binding::Cell(cell);
    make_ready(record, at);
    make_ready(record, new);
    Ok(Reply::GoesOn)
}

fn bind(record: &mut Record, at: usize, variable: usize, binding: Binding, next: usize) -> Reply {
    record.tokens[at].bindings[variable] = binding;
    record.tokens[at].node = next;
    make_ready(record, at);
    Reply::GoesOn
}

/// The callee starts at once: it does not wait for cells that are unset.
fn definition_call(
    record: &mut Record,
    at: usize,
    used: &InUse,
    first: usize,
    parameters: &[Parameter],
    next: usize,
) -> Result<Reply, Refused> {
    let callee = Token { caller: Some(at), ..callee(&record.tokens[at], first, parameters) };
    let new = new_token(record, used, callee)?;
    record.tokens[at].node = next;
    record.tokens[at].state = State::Frame;
    make_ready(record, new);
    Ok(Reply::GoesOn)
}

/// The call is its body's last act, and would only pass its value on: the token itself becomes the
/// callee, with the caller that it has. No frame is kept and no place taken, so nothing is refused.
fn tail_call(record: &mut Record, at: usize, first: usize, parameters: &[Parameter]) -> Reply {
    record.tokens[at] = callee(&record.tokens[at], first, parameters);
    make_ready(record, at);
    Reply::GoesOn
}

/// What runs the body for a token at a call: only the formals are bound, by what the parameters say
/// of the token, and there is no value. Caller and cell are the token's.
fn callee(token: &Token, first: usize, parameters: &[Parameter]) -> Token {
    let mut callee = Token { node: first, caller: token.caller, cell: token.cell, ..Token::BLANK };
    for (formal, parameter) in callee.bindings.iter_mut().zip(parameters) {
        *formal = binding(token, parameter);
    }
    callee
}

/// The frame stays: other tokens may still return to it.
fn return_(record: &mut Record, at: usize) -> Reply {
    let token = record.tokens[at];
    let frame = record.tokens[token.caller.expect("the rules ask for a frame")];
    record.tokens[at] = Token { value: token.value, ..frame };
    make_ready(record, at);
    Reply::GoesOn
}

/// Sets the cell, ends all tokens under it, then wakes those that wait at it.
fn choke(record: &mut Record, at: usize) -> Reply {
    let token = record.tokens[at];
    let cell = token.cell.expect("the rules ask for a cell");
    record.cells[cell].value = token.value;
    end_under(record, cell);
    wake(record, cell);
    Reply::Ends
}

fn end_under(record: &mut Record, cell: usize) {
    let below = |place: &usize| record.chain(record.tokens[*place].cell).any(|at| at == cell);
    let ended: Vec<usize> = (0..record.tokens.len()).filter(below).collect();
    for &place in &ended {
        end(record, place);
    }
    record.queue.retain(|place| !ended.contains(place));
    record.waits.retain(|place| !ended.contains(place));
    record.timers.retain(|place| !ended.contains(place));
}

fn wake(record: &mut Record, cell: usize) {
    let at_cell = |place: &usize| record.tokens[*place].state == State::Waiting(cell);
    let (woken, rest): (Vec<usize>, Vec<usize>) =
        record.waits.iter().partition(|place| at_cell(place));
    record.waits = rest;
    for place in woken {
        make_ready(record, place);
    }
}
