//! The index rules, on any dag words and any record.

use crate::record::{places, Machine, Order, Slot, State, Token, Used, CELLS, LAST_TIME, TOKENS};
use crate::table::{row_of, takes, Dag, Row, HEAD, ROW};

fn row_holds(row: &Row, nodes: u32, bodies: u32) -> bool {
    let [kind, a, b, c, ..] = *row;
    let unused = a == 0 && b == 0 && c == 0;
    let head = match kind {
        0 | 7 | 8 | 9 => unused,
        1 => takes(a, c) && b < nodes,
        2 => a < bodies && c <= 4 && b < nodes,
        3 => a < nodes && b < nodes && c == 0,
        4 | 5 => a < 8 && b < nodes && c == 0,
        6 => a < nodes && b < nodes && c < 8,
        _ => false,
    };
    let count = if kind == 1 || kind == 2 { c as usize } else { 0 };
    head && row[4..].chunks_exact(2).enumerate().all(|(i, pair)| match (i < count, pair[0]) {
        (true, 7) => pair[1] < 8,
        (true, 8) => true,
        (false, 0) => pair[1] == 0,
        _ => false,
    })
}

pub fn dag_holds(dag: &Dag) -> bool {
    let (nodes, bodies) = (dag[0], dag[1]);
    if nodes > 1022 || bodies > 32 || dag[2] >= nodes {
        return false;
    }
    let heads = &dag[3..3 + 2 * bodies as usize];
    heads.chunks_exact(2).all(|body| body[0] < nodes && body[1] <= 4)
        && dag[HEAD..HEAD + ROW * nodes as usize]
            .chunks_exact(ROW)
            .all(|row| row_holds(row.try_into().expect("twelve words"), nodes, bodies))
}

fn in_places(place: Option<u8>, places: usize) -> bool {
    place.is_none_or(|p| (p as usize) < places)
}

fn token_in_range(token: &Token, nodes: u32, calls: u32, clock: u32) -> bool {
    (token.node as u32) < nodes
        && in_places(token.caller, TOKENS)
        && in_places(token.cell, CELLS)
        && token.binds.iter().all(|slot| match *slot {
            Slot::Cell(c) => (c as usize) < CELLS,
            _ => true,
        })
        && match token.state {
            State::Waiting(c) => (c as usize) < CELLS,
            State::Called(h) => h < calls,
            State::Due(at) => clock < at && at <= LAST_TIME,
            _ => true,
        }
}

/// The numbers of a record, and the fields of its tokens and cells that are not blank.
fn in_range(machine: &Machine, nodes: u32, tokens: u64, cells: u32) -> bool {
    let Machine { calls, clock, .. } = *machine;
    calls <= 1_000_000
        && clock <= LAST_TIME
        && (machine.last_token as usize) < TOKENS
        && (machine.last_cell as usize) < CELLS
        && machine.queue.count <= TOKENS
        && machine.waits.count <= TOKENS
        && machine.timers.count <= TOKENS
        && places(tokens).all(|p| token_in_range(&machine.tokens[p], nodes, calls, clock))
        && places(cells as u64).all(|c| in_places(machine.cells[c].parent, CELLS))
}

/// The tokens that an order names, if it names each once, and nothing behind it.
fn named(order: &Order) -> Option<u64> {
    let mut named = 0;
    for &name in order.names() {
        if name as usize >= TOKENS || named >> name & 1 == 1 {
            return None;
        }
        named |= 1 << name;
    }
    order.names[order.count..].iter().all(|&name| name == 0).then_some(named)
}

/// Every chain of parents ends; that of a blank cell does.
fn parents_end(machine: &Machine, cells: u32) -> bool {
    let mut ends: u32 = 0;
    for start in places(cells as u64) {
        let mut chain: u32 = 0;
        let mut here = Some(start as u8);
        while let Some(at) = here {
            if ends >> at & 1 == 1 {
                break;
            }
            if chain >> at & 1 == 1 {
                return false;
            }
            chain |= 1 << at;
            here = machine.cells[at as usize].parent;
        }
        ends |= chain;
    }
    true
}

/// The rule of the node at which a token stands.
fn node_holds(machine: &Machine, dag: &Dag, token: &Token) -> bool {
    let row = row_of(dag, token.node);
    let valued = token.state != State::Ready || token.value.is_some();
    match row[0] {
        1 | 2 => row[4..4 + 2 * row[3] as usize]
            .chunks_exact(2)
            .all(|pair| pair[0] != 7 || token.binds[pair[1] as usize] != Slot::Empty),
        4 | 5 | 9 => valued,
        7 => valued && token.cell.is_some(),
        8 => {
            valued && token.caller.is_some_and(|p| machine.tokens[p as usize].state == State::Frame)
        }
        _ => true,
    }
}

/// The open handles so far.
struct Handles {
    seen: [u32; TOKENS],
    count: usize,
}

impl Handles {
    fn add(&mut self, handle: u32) -> bool {
        if self.seen[..self.count].contains(&handle) {
            return false;
        }
        self.seen[self.count] = handle;
        self.count += 1;
        true
    }
}

/// What is in use, if all rules hold. A blank token or cell keeps its own rules, and no order names one.
pub fn tested(machine: &Machine, dag: &Dag) -> Option<Used> {
    let (tokens, cells) = machine.filled();
    if !dag_holds(dag) || !in_range(machine, dag[0], tokens, cells) || !parents_end(machine, cells)
    {
        return None;
    }
    let queued = named(&machine.queue)?;
    let waiting = named(&machine.waits)?;
    let timed = named(&machine.timers)?;
    let used = machine.used(tokens);
    if (tokens & !used.tokens) | (cells & !used.cells) as u64 | (queued | waiting | timed) & !tokens
        != 0
    {
        return None;
    }
    let mut handles = Handles { seen: [0; TOKENS], count: 0 };
    for p in places(tokens) {
        let token = &machine.tokens[p];
        let bit = |bits: u64| bits >> p & 1 == 1;
        let unset = || !machine.under_set(token.cell);
        let holds = match token.state {
            State::Blank | State::Frame => !bit(queued | waiting | timed),
            State::Ready => bit(queued) && !bit(waiting | timed) && unset(),
            State::Waiting(c) => {
                bit(waiting)
                    && !bit(queued | timed)
                    && unset()
                    && machine.cells[c as usize].value.is_none()
            }
            State::Called(h) => !bit(queued | waiting | timed) && unset() && handles.add(h),
            State::Due(_) => bit(timed) && !bit(queued | waiting) && unset(),
        };
        if !holds || token.state != State::Blank && !node_holds(machine, dag, token) {
            return None;
        }
    }
    Some(used)
}
