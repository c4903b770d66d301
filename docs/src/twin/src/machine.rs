//! Start, step, answer and clock move.

use crate::record::{next_place, places, Cell, Machine, Order, Slot, State, Token, Used};
use crate::record::{LAST_TIME, TOKENS};
use crate::rules;
use crate::table::{row_of, Dag, Row};

/// What a call did. `Called` has the handle, the site, and the parameter values with their number.
#[derive(Clone, Copy, Debug, PartialEq, Eq)]
pub enum Reply {
    Done,
    Waits,
    Published(i32),
    Called(u32, u16, [i32; 4], usize),
    Refused(u8),
}

use Reply::Refused;

/// The public start: tests the dag.
pub fn start(machine: &mut Machine, dag: &Dag) -> Reply {
    if !rules::dag_holds(dag) {
        return Refused(14);
    }
    machine.clear(dag[2] as u16);
    Reply::Done
}

/// The public step: tests all index rules on any record and any dag first.
pub fn step(machine: &mut Machine, dag: &Dag, place: usize) -> Reply {
    let Some(mut used) = rules::tested(machine, dag) else { return Refused(14) };
    if place >= machine.queue.count {
        return Refused(9);
    }
    act(machine, dag, place, &mut used)
}

/// The public answer: tests all index rules first.
pub fn answer(machine: &mut Machine, dag: &Dag, handle: u32, value: i32) -> Reply {
    if rules::tested(machine, dag).is_none() {
        return Refused(14);
    }
    house_answer(machine, u64::MAX, handle, value)
}

/// An answer in a house run: the rules are not tested again, and only tokens in use are looked at. Nothing is out of reach after it.
pub fn house_answer(machine: &mut Machine, used: u64, handle: u32, value: i32) -> Reply {
    if handle >= machine.calls {
        return Refused(12);
    }
    let open = |&p: &usize| machine.tokens[p].state == State::Called(handle);
    let Some(p) = places(used).find(open) else { return Refused(12) };
    machine.tokens[p].value = Some(value);
    machine.tokens[p].state = State::Ready;
    machine.queue.push(p as u8);
    Reply::Done
}

/// The public clock move: tests all index rules first.
pub fn advance(machine: &mut Machine, dag: &Dag, time: u32) -> Reply {
    if rules::tested(machine, dag).is_none() {
        return Refused(14);
    }
    house_advance(machine, time)
}

/// A clock move in a house run: those now due join the queue with value 0, by due time, then by order of call. Nothing is out of reach
/// after it.
#[cold]
pub fn house_advance(machine: &mut Machine, time: u32) -> Reply {
    if time < machine.clock || time > LAST_TIME {
        return Refused(15);
    }
    machine.clock = time;
    if machine.timers.count == 0 {
        return Reply::Done;
    }
    // due time, place in the order of call, name
    let mut due = [(0, 0, 0); TOKENS];
    let mut count = 0;
    let mut later = Order::EMPTY;
    for (call, &name) in machine.timers.names().iter().enumerate() {
        match machine.tokens[name as usize].state {
            State::Due(at) if at <= time => {
                due[count] = (at, call, name);
                count += 1;
            }
            _ => later.push(name),
        }
    }
    due[..count].sort_unstable();
    for &(_, _, name) in &due[..count] {
        machine.tokens[name as usize].value = Some(0);
        machine.tokens[name as usize].state = State::Ready;
        machine.queue.push(name);
    }
    machine.timers = later;
    Reply::Done
}

/// A variable's binding as it is, or a constant.
fn passed(token: &Token, kind: u32, word: u32) -> Slot {
    if kind == 7 {
        token.binds[word as usize]
    } else {
        Slot::Value(word as i32)
    }
}

/// The token at a place of the queue acts, on a record that keeps the rules. `used` says what is in use, before and after.
#[inline(always)]
pub fn act(machine: &mut Machine, dag: &Dag, place: usize, used: &mut Used) -> Reply {
    let p = machine.queue.names[place];
    let token = &machine.tokens[p as usize];
    let value = token.value.unwrap_or(0);
    let row = row_of(dag, token.node);
    let [kind, a, b, c, ..] = *row;
    match kind {
        0 => end(machine, place, p, used, Reply::Done),
        1 => site(machine, place, p, row, used),
        2 => call(machine, dag, place, p, row, used),
        3 => fork(machine, place, p, row, used),
        4 => rebind(machine, place, p, a, Slot::Value(value), b, used),
        5 => rebind(machine, place, p, a, Slot::Empty, b, used),
        6 => split(machine, place, p, [a, b, c], used),
        7 => choke(machine, place, p, used),
        8 => returns(machine, place, p, used),
        _ => end(machine, place, p, used, Reply::Published(value)),
    }
}

/// To the back of the queue, at another node.
fn goes_on(machine: &mut Machine, place: usize, p: u8, node: u32) {
    machine.tokens[p as usize].node = node as u16;
    machine.queue.replace(place, p);
}

/// A new token at a free place, which the queue does not name yet.
fn put_new(machine: &mut Machine, new: u8, token: Token, used: &mut Used) {
    machine.tokens[new as usize] = token;
    machine.last_token = new;
    used.tokens |= 1 << new;
}

fn end(machine: &mut Machine, place: usize, p: u8, used: &mut Used, reply: Reply) -> Reply {
    let linked = machine.tokens[p as usize].names_any();
    machine.queue.remove(place);
    machine.tokens[p as usize] = Token::BLANK;
    if linked {
        machine.sweep(used);
    }
    used.tokens &= !(1 << p);
    reply
}

fn rebind(
    machine: &mut Machine,
    place: usize,
    p: u8,
    variable: u32,
    slot: Slot,
    next: u32,
    used: &mut Used,
) -> Reply {
    let bind = &mut machine.tokens[p as usize].binds[variable as usize];
    let before = std::mem::replace(bind, slot);
    goes_on(machine, place, p, next);
    if matches!(before, Slot::Cell(_)) {
        machine.sweep(used);
    }
    Reply::Done
}

fn fork(machine: &mut Machine, place: usize, p: u8, row: &Row, used: &mut Used) -> Reply {
    let Some(new) = next_place(!used.tokens, machine.last_token) else { return Refused(10) };
    goes_on(machine, place, p, row[1]);
    let token = Token { node: row[2] as u16, ..machine.tokens[p as usize] };
    used.share(token.caller);
    put_new(machine, new, token, used);
    machine.queue.push(new);
    Reply::Done
}

fn split(
    machine: &mut Machine,
    place: usize,
    p: u8,
    [left, right, variable]: [u32; 3],
    used: &mut Used,
) -> Reply {
    let Some(new) = next_place(!used.tokens, machine.last_token) else { return Refused(10) };
    let free = !used.cells as u64;
    let Some(cell) = next_place(free, machine.last_cell) else { return Refused(11) };
    let token = Token { node: right as u16, cell: Some(cell), ..machine.tokens[p as usize] };
    machine.cells[cell as usize] = Cell { parent: machine.tokens[p as usize].cell, value: None };
    machine.last_cell = cell;
    used.cells |= 1 << cell;
    used.share(token.caller);
    machine.tokens[p as usize].binds[variable as usize] = Slot::Cell(cell);
    goes_on(machine, place, p, left);
    put_new(machine, new, token, used);
    machine.queue.push(new);
    Reply::Done
}

/// A call that is its body's last act keeps no frame: the token itself becomes the callee, with its own caller. Cells that it bound may be
/// out of reach after it.
fn call(
    machine: &mut Machine,
    dag: &Dag,
    place: usize,
    p: u8,
    row: &Row,
    used: &mut Used,
) -> Reply {
    let token = &mut machine.tokens[p as usize];
    if leads_back(dag, row[2]) {
        let lost = token.binds_cell();
        *token = callee(token, dag, row, token.caller);
        machine.queue.replace(place, p);
        if lost {
            machine.sweep(used);
        }
        return Reply::Done;
    }
    let Some(new) = next_place(!used.tokens, machine.last_token) else { return Refused(10) };
    let callee = callee(token, dag, row, Some(p));
    token.node = row[2] as u16;
    token.state = State::Frame;
    used.shared &= !(1 << p);
    put_new(machine, new, callee, used);
    machine.queue.replace(place, new);
    Reply::Done
}

/// Are there only removes from this node on, and then a return? As many nodes are looked at as there are, since removes may go in a circle
/// where no table made the dag.
fn leads_back(dag: &Dag, mut node: u32) -> bool {
    for _ in 0..dag[0] {
        let [kind, _, next, ..] = *row_of(dag, node as u16);
        if kind != 5 {
            return kind == 8;
        }
        node = next;
    }
    false
}

/// What runs the body for a token at a call: in its cell, with no value and only the formals bound.
fn callee(token: &Token, dag: &Dag, row: &Row, caller: Option<u8>) -> Token {
    let mut callee = Token {
        node: dag[3 + 2 * row[1] as usize] as u16,
        caller,
        cell: token.cell,
        state: State::Ready,
        ..Token::BLANK
    };
    for i in 0..row[3] as usize {
        callee.binds[i] = passed(token, row[4 + 2 * i], row[5 + 2 * i]);
    }
    callee
}

/// The frame goes on with the value. Where the token binds no cell and has the frame's, only the frame can be out of reach, and is where no
/// other token has named it.
fn returns(machine: &mut Machine, place: usize, p: u8, used: &mut Used) -> Reply {
    let token = &machine.tokens[p as usize];
    let Some(f) = token.caller else { return Refused(14) };
    let frame = &machine.tokens[f as usize];
    let lost = token.cell != frame.cell || token.binds_cell();
    let written = Token { value: token.value, state: State::Ready, ..*frame };
    let shared = used.shared >> f & 1 == 1;
    if shared {
        used.share(written.caller);
    }
    machine.tokens[p as usize] = written;
    machine.queue.replace(place, p);
    if lost {
        machine.sweep(used);
    } else if !(shared && machine.is_caller(f)) {
        machine.tokens[f as usize] = Token::BLANK;
        used.tokens &= !(1 << f);
    }
    Reply::Done
}

fn site(machine: &mut Machine, place: usize, p: u8, row: &Row, used: &mut Used) -> Reply {
    let count = row[3] as usize;
    let token = &machine.tokens[p as usize];
    let mut values = [0; 4];
    for i in 0..count {
        values[i] = match passed(token, row[4 + 2 * i], row[5 + 2 * i]) {
            Slot::Empty => 0,
            Slot::Value(value) => value,
            Slot::Cell(cell) => match machine.cells[cell as usize].value {
                Some(value) => value,
                None => {
                    machine.queue.remove(place);
                    machine.tokens[p as usize].state = State::Waiting(cell);
                    machine.waits.push(p);
                    return Reply::Waits;
                }
            },
        };
    }
    if row[1] < 7 {
        let Some(value) = builtin(row[1], values[0], values[1]) else {
            return end(machine, place, p, used, Reply::Done);
        };
        machine.tokens[p as usize].value = Some(value);
        goes_on(machine, place, p, row[2]);
        return Reply::Done;
    }
    if row[1] == 7 {
        return rwait(machine, place, p, values[0], row[2], used);
    }
    let handle = machine.calls;
    if handle >= 1_000_000 {
        return Refused(13);
    }
    machine.queue.remove(place);
    machine.calls += 1;
    machine.tokens[p as usize].node = row[2] as u16;
    machine.tokens[p as usize].state = State::Called(handle);
    Reply::Called(handle, row[1] as u16, values, count)
}

fn builtin(site: u32, a: i32, b: i32) -> Option<i32> {
    match site {
        0 => Some(a),
        1 => (a != 0).then_some(0),
        2 => (a == 0).then_some(0),
        3 => Some(0),
        4 => a.checked_add(b),
        5 => Some((a < b) as i32),
        _ => Some((a == b) as i32),
    }
}

/// For 0 it replies at once, for more the token is due later; it ends for less, and where that would be past the last time. (Marked as
/// seldom called, as the clock move is, so that the code of other calls stays as it was.)
#[cold]
fn rwait(
    machine: &mut Machine,
    place: usize,
    p: u8,
    time: i32,
    next: u32,
    used: &mut Used,
) -> Reply {
    let due = machine.clock as i64 + time as i64;
    if time < 0 || due > LAST_TIME as i64 {
        return end(machine, place, p, used, Reply::Done);
    }
    if time == 0 {
        machine.tokens[p as usize].value = Some(0);
        goes_on(machine, place, p, next);
        return Reply::Done;
    }
    machine.queue.remove(place);
    machine.tokens[p as usize].node = next as u16;
    machine.tokens[p as usize].state = State::Due(due as u32);
    machine.timers.push(p);
    Reply::Done
}

/// Sets the cell, ends all tokens of it and of its descendants, and wakes those that wait at it.
fn choke(machine: &mut Machine, place: usize, p: u8, used: &mut Used) -> Reply {
    let token = &machine.tokens[p as usize];
    let Some(cell) = token.cell else { return Refused(14) };
    machine.cells[cell as usize].value = token.value;
    machine.queue.remove(place);
    let below = below(machine, cell, used.cells);
    for p in places(used.tokens) {
        let token = &mut machine.tokens[p];
        if token.cell.is_some_and(|home| below >> home & 1 == 1) {
            *token = Token::BLANK;
        } else if token.state == State::Waiting(cell) {
            token.state = State::Ready;
        }
    }
    let state = |name: u8| machine.tokens[name as usize].state;
    let (mut queue, mut waits) = (Order::EMPTY, Order::EMPTY);
    for &name in machine.queue.names().iter().chain(machine.waits.names()) {
        match state(name) {
            State::Ready => queue.push(name),
            State::Waiting(_) => waits.push(name),
            _ => {}
        }
    }
    machine.queue = queue;
    machine.waits = waits;
    if machine.timers.count > 0 {
        let mut timers = Order::EMPTY;
        for &name in machine.timers.names() {
            if matches!(machine.tokens[name as usize].state, State::Due(_)) {
                timers.push(name);
            }
        }
        machine.timers = timers;
    }
    machine.sweep(used);
    Reply::Done
}

/// The cell and its descendants among those in use.
fn below(machine: &Machine, cell: u8, among: u32) -> u32 {
    let mut below = 1 << cell;
    for start in places((among & !below) as u64) {
        let mut here = Some(start as u8);
        while let Some(at) = here {
            if below >> at & 1 == 1 {
                below |= 1 << start;
                break;
            }
            here = machine.cells[at as usize].parent;
        }
    }
    below
}
