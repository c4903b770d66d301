//! The machine's record: tokens, cells, the queue, the wait order, the order of call, the clock;
//! and what is in use.

pub const BINDINGS: usize = 8;

/// The sizes of the tables and the most outside calls.
#[derive(Clone, Copy, Debug, PartialEq, Eq)]
pub struct Limits {
    pub tokens: usize,
    pub cells: usize,
    pub calls: u32,
}

/// Where the clock's range ends; it begins at 0.
pub const LAST_TIME: u32 = 2_147_483_647;

/// The paper's numbers.
pub const PAPER: Limits = Limits { tokens: 64, cells: 32, calls: 1_000_000 };

#[derive(Clone, Copy, Debug, PartialEq, Eq)]
pub enum Binding {
    Empty,
    Value(i32),
    Cell(usize),
}

#[derive(Clone, Copy, Debug, PartialEq, Eq)]
pub enum State {
    Blank,
    Ready,
    /// Waits at this cell.
    Waiting(usize),
    /// Called out under this handle.
    CalledOut(u32),
    /// Falls due at this time.
    Due(u32),
    /// Stands for a call until its callee returns.
    Frame,
}

#[derive(Clone, Copy, Debug, PartialEq, Eq)]
pub struct Token {
    pub node: usize,
    pub bindings: [Binding; BINDINGS],
    pub value: Option<i32>,
    pub caller: Option<usize>,
    /// The cell it belongs to; `None` is the root.
    pub cell: Option<usize>,
    pub state: State,
}

impl Token {
    pub const BLANK: Token = Token {
        node: 0,
        bindings: [Binding::Empty; BINDINGS],
        value: None,
        caller: None,
        cell: None,
        state: State::Blank,
    };

    /// Ready, waiting, called out or due later: these act, now or later.
    pub fn is_live(&self) -> bool {
        !matches!(self.state, State::Blank | State::Frame)
    }

    /// The time at which it falls due.
    pub fn due_time(&self) -> Option<u32> {
        match self.state {
            State::Due(time) => Some(time),
            _ => None,
        }
    }

    /// The cells that the bindings name.
    pub fn bound_cells(&self) -> impl Iterator<Item = usize> + '_ {
        self.bindings.iter().filter_map(|binding| match binding {
            Binding::Cell(cell) => Some(*cell),
            _ => None,
        })
    }
}

#[derive(Clone, Copy, Debug, PartialEq, Eq)]
pub struct Cell {
    /// `None` is the root.
    pub parent: Option<usize>,
    pub value: Option<i32>,
}

impl Cell {
    pub const BLANK: Cell = Cell { parent: None, value: None };
}

#[derive(Clone, Debug, PartialEq, Eq)]
pub struct Record {
    pub tokens: Vec<Token>,
    pub cells: Vec<Cell>,
    /// Ready tokens, the front first.
    pub queue: Vec<usize>,
    /// Waiting tokens, the longest wait first.
    pub waits: Vec<usize>,
    /// Tokens due later, in the order in which they called.
    pub timers: Vec<usize>,
    /// Outside calls made so far; the next handle.
    pub calls: u32,
    /// The places given last.
    pub last_token: usize,
    pub last_cell: usize,
    /// The present time.
    pub clock: u32,
}

/// Which places are in use.
#[derive(Clone, Debug, PartialEq, Eq)]
pub struct InUse {
    pub tokens: Vec<bool>,
    pub cells: Vec<bool>,
}

/// A place found by the worklist.
enum Found {
    Token(usize),
    Cell(usize),
}

impl Record {
    /// The record before anything runs. The last cell place counts as given, so that the first
    /// cell takes place 0; token 0 is the starting one.
    pub fn blank(limits: &Limits) -> Record {
        Record {
            tokens: vec![Token::BLANK; limits.tokens],
            cells: vec![Cell::BLANK; limits.cells],
            queue: Vec::new(),
            waits: Vec::new(),
            timers: Vec::new(),
            calls: 0,
            last_token: 0,
            last_cell: limits.cells.saturating_sub(1),
            clock: 0,
        }
    }

    /// A cell and its ancestors. It gives at most one item per cell and one more, so that it ends
    /// on a chain that runs in a circle too.
    pub fn chain(&self, cell: Option<usize>) -> impl Iterator<Item = usize> + '_ {
        std::iter::successors(cell, |&at| self.cells[at].parent).take(self.cells.len() + 1)
    }

    pub fn is_under_set_cell(&self, token: &Token) -> bool {
        self.chain(token.cell).any(|cell| self.cells[cell].value.is_some())
    }

    pub fn is_active(&self, token: &Token) -> bool {
        token.is_live() && !self.is_under_set_cell(token)
    }

    /// Active tokens, and what they reach by caller, cell, parent and binding.
    pub fn in_use(&self) -> InUse {
        let mut used =
            InUse { tokens: vec![false; self.tokens.len()], cells: vec![false; self.cells.len()] };
        let active = |place: &usize| self.is_active(&self.tokens[*place]);
        let mut todo: Vec<Found> =
            (0..self.tokens.len()).filter(active).map(Found::Token).collect();
        while let Some(found) = todo.pop() {
            match found {
                Found::Token(place) if !used.tokens[place] => {
                    used.tokens[place] = true;
                    let token = &self.tokens[place];
                    todo.extend(token.caller.map(Found::Token));
                    todo.extend(token.cell.map(Found::Cell));
                    todo.extend(token.bound_cells().map(Found::Cell));
                }
                Found::Cell(place) if !used.cells[place] => {
                    used.cells[place] = true;
                    todo.extend(self.cells[place].parent.map(Found::Cell));
                }
                // Seen before.
                _ => {}
            }
        }
        used
    }

    /// Makes blank what is not in use.
    pub fn sweep(&mut self) {
        let used = self.in_use();
        for (token, used) in self.tokens.iter_mut().zip(used.tokens) {
            if !used {
                *token = Token::BLANK;
            }
        }
        for (cell, used) in self.cells.iter_mut().zip(used.cells) {
            if !used {
                *cell = Cell::BLANK;
            }
        }
    }

    /// The handles that wait for an answer.
    pub fn open_handles(&self) -> Vec<u32> {
        let handle = |token: &Token| match token.state {
            State::CalledOut(handle) => Some(handle),
            _ => None,
        };
        self.tokens.iter().filter_map(handle).collect()
    }
}
