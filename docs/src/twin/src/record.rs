//! The machine record, what of it is in use, and blanking.

pub const TOKENS: usize = 64;
pub const CELLS: usize = 32;
/// The last time of the clock.
pub const LAST_TIME: u32 = 2_147_483_647;

#[derive(Clone, Copy, PartialEq, Eq)]
pub enum Slot {
    Empty,
    Value(i32),
    Cell(u8),
}

#[derive(Clone, Copy, PartialEq, Eq)]
pub enum State {
    Blank,
    Ready,
    Waiting(u8),
    Called(u32),
    Due(u32),
    Frame,
}

impl State {
    pub fn is_live(self) -> bool {
        !matches!(self, State::Blank | State::Frame)
    }
}

#[derive(Clone, Copy, PartialEq, Eq)]
pub struct Token {
    pub node: u16,
    pub caller: Option<u8>,
    pub cell: Option<u8>,
    pub state: State,
    pub value: Option<i32>,
    pub binds: [Slot; 8],
}

impl Token {
    pub const BLANK: Token = Token {
        node: 0,
        caller: None,
        cell: None,
        state: State::Blank,
        value: None,
        binds: [Slot::Empty; 8],
    };

    /// Is it blank? Every field is looked at, so that nothing is waited for.
    pub fn is_blank(&self) -> bool {
        let unbound = self.binds.iter().fold(true, |none, slot| none & matches!(slot, Slot::Empty));
        matches!(self.state, State::Blank)
            & (self.node == 0)
            & self.caller.is_none()
            & self.cell.is_none()
            & self.value.is_none()
            & unbound
    }

    pub fn binds_cell(&self) -> bool {
        self.binds.iter().any(|slot| matches!(slot, Slot::Cell(_)))
    }

    /// Does it name a caller, a cell or a bound cell?
    pub fn names_any(&self) -> bool {
        self.caller.is_some() || self.cell.is_some() || self.binds_cell()
    }
}

#[derive(Clone, Copy, PartialEq, Eq)]
pub struct Cell {
    pub parent: Option<u8>,
    pub value: Option<i32>,
}

impl Cell {
    pub const BLANK: Cell = Cell { parent: None, value: None };

    pub fn is_blank(&self) -> bool {
        self.parent.is_none() & self.value.is_none()
    }
}

/// Names of tokens in an order, the first `count` of `names`; behind them all is 0.
#[derive(Clone, Copy)]
pub struct Order {
    pub names: [u8; TOKENS],
    pub count: usize,
}

impl Order {
    pub const EMPTY: Order = Order { names: [0; TOKENS], count: 0 };

    pub fn push(&mut self, name: u8) {
        self.names[self.count] = name;
        self.count += 1;
    }

    pub fn remove(&mut self, index: usize) {
        for i in index + 1..self.count {
            self.names[i - 1] = self.names[i];
        }
        self.count -= 1;
        self.names[self.count] = 0;
    }

    /// Takes out the name at an index and puts one behind the others, in one pass.
    pub fn replace(&mut self, index: usize, name: u8) {
        let last = self.count - 1;
        for i in index..last {
            self.names[i] = self.names[i + 1];
        }
        self.names[last] = name;
    }

    pub fn names(&self) -> &[u8] {
        &self.names[..self.count]
    }
}

/// `last_token` and `last_cell` are the last places given; `timers` names the tokens due later in the order in which they called.
#[derive(Clone, Copy)]
pub struct Machine {
    pub tokens: [Token; TOKENS],
    pub cells: [Cell; CELLS],
    pub queue: Order,
    pub waits: Order,
    pub calls: u32,
    pub last_token: u8,
    pub last_cell: u8,
    pub timers: Order,
    pub clock: u32,
}

/// Which tokens and cells are in use, and which tokens more than one may name as its caller: a bit for each place.
#[derive(Clone, Copy)]
pub struct Used {
    pub tokens: u64,
    pub cells: u32,
    pub shared: u64,
}

impl Used {
    /// What is in use at a start: the first token.
    pub const START: Used = Used { tokens: 1, cells: 0, shared: 0 };

    /// One more token names this caller.
    pub fn share(&mut self, caller: Option<u8>) {
        if let Some(frame) = caller {
            self.shared |= 1 << frame;
        }
    }
}

/// The places whose bit is set.
pub fn places(mut bits: u64) -> impl Iterator<Item = usize> {
    std::iter::from_fn(move || {
        if bits == 0 {
            return None;
        }
        let place = bits.trailing_zeros() as usize;
        bits &= bits - 1;
        Some(place)
    })
}

/// The next place not in use after the last one given, round from the end to 0. `free` has a bit for each place that is not in use.
pub fn next_place(free: u64, last: u8) -> Option<u8> {
    if free == 0 {
        return None;
    }
    let after = free & (!1 << last);
    let choice = if after == 0 { free } else { after };
    Some(choice.trailing_zeros() as u8)
}

impl Machine {
    pub const BLANK: Machine = Machine {
        tokens: [Token::BLANK; TOKENS],
        cells: [Cell::BLANK; CELLS],
        queue: Order::EMPTY,
        waits: Order::EMPTY,
        calls: 0,
        last_token: 0,
        last_cell: 0,
        timers: Order::EMPTY,
        clock: 0,
    };

    /// The record of a start, in place: one ready token at the goal's first node.
    pub fn clear(&mut self, goal: u16) {
        *self = Machine::BLANK;
        self.tokens[0].node = goal;
        self.tokens[0].state = State::Ready;
        self.queue.count = 1;
        self.last_cell = CELLS as u8 - 1;
    }

    /// The tokens and the cells that are not blank: a bit for each place.
    pub fn filled(&self) -> (u64, u32) {
        let token = |bits, (p, token): (usize, &Token)| bits | u64::from(!token.is_blank()) << p;
        let cell = |bits, (c, cell): (usize, &Cell)| bits | u32::from(!cell.is_blank()) << c;
        (self.tokens.iter().enumerate().fold(0, token), self.cells.iter().enumerate().fold(0, cell))
    }

    /// Is the cell at a place set, or one of its ancestors?
    pub fn under_set(&self, place: Option<u8>) -> bool {
        let mut here = place;
        while let Some(at) = here {
            let cell = &self.cells[at as usize];
            if cell.value.is_some() {
                return true;
            }
            here = cell.parent;
        }
        false
    }

    fn mark_cell(&self, cell: u8, marks: &mut u32) {
        let mut here = Some(cell);
        while let Some(at) = here {
            if *marks >> at & 1 == 1 {
                return;
            }
            *marks |= 1 << at;
            here = self.cells[at as usize].parent;
        }
    }

    fn mark_token(&self, token: usize, used: &mut Used) {
        let mut here = Some(token as u8);
        while let Some(at) = here {
            if used.tokens >> at & 1 == 1 {
                return;
            }
            used.tokens |= 1 << at;
            let token = &self.tokens[at as usize];
            if let Some(cell) = token.cell {
                self.mark_cell(cell, &mut used.cells);
            }
            for slot in &token.binds {
                if let Slot::Cell(cell) = *slot {
                    self.mark_cell(cell, &mut used.cells);
                }
            }
            here = token.caller;
        }
    }

    /// Live tokens, and what they reach by caller, cell, parent and binding. No token outside `among` is live, and every place that is
    /// named exists.
    pub fn used(&self, among: u64) -> Used {
        let mut used = Used { tokens: 0, cells: 0, shared: u64::MAX };
        for p in places(among) {
            if self.tokens[p].state.is_live() {
                self.mark_token(p, &mut used);
            }
        }
        used
    }

    /// Blanks what is no longer in use; what was not in use before is blank already.
    pub fn sweep(&mut self, used: &mut Used) {
        let now = self.used(used.tokens);
        for p in places(used.tokens & !now.tokens) {
            self.tokens[p] = Token::BLANK;
        }
        for c in places((used.cells & !now.cells) as u64) {
            self.cells[c] = Cell::BLANK;
        }
        *used = Used { shared: used.shared, ..now };
    }

    pub fn is_caller(&self, frame: u8) -> bool {
        self.tokens.iter().fold(false, |named, token| named | (token.caller == Some(frame)))
    }
}
