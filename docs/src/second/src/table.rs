//! The job table: its bytes are read once from front to back.
//!
//! Instead of functions that call each other, the reader keeps a stack of what it still expects.
//! The top of the stack says what may stand at the next entry, at which depth and with how many
//! variables in scope; an entry pushes what has to follow it.

use crate::sites;

pub const MOST_DEFINITIONS: usize = 32;
pub const MOST_ENTRIES: usize = 512;
pub const MOST_IN_SCOPE: usize = 8;
pub const MOST_DEPTH: usize = 24;

const HEADER: usize = 4;
const PER_ENTRY: usize = 5;

/// Why a table is declined: the number, and the entry where (0 for 1 and 2).
#[derive(Clone, Copy, Debug, PartialEq, Eq)]
pub struct Refusal {
    pub number: u8,
    pub entry: usize,
}

/// A checked entry. A binder carries the number of the variable that it binds.
#[derive(Clone, Copy, Debug, PartialEq, Eq)]
pub enum Entry {
    Stop,
    SiteCall { site: u32, count: usize },
    DefinitionCall { definition: usize, count: usize },
    Fork,
    Sequence { binds: usize },
    Prune { binds: usize },
    Definition { formals: usize },
    Variable(usize),
    Constant(i32),
}

impl Entry {
    /// How many expressions, bodies or parameters follow.
    fn followers(&self) -> usize {
        match *self {
            Entry::Stop | Entry::Variable(_) | Entry::Constant(_) => 0,
            Entry::SiteCall { count, .. } | Entry::DefinitionCall { count, .. } => count,
            Entry::Fork | Entry::Sequence { .. } | Entry::Prune { .. } => 2,
            Entry::Definition { .. } => 1,
        }
    }
}

/// An accepted table.
#[derive(Clone, Debug, PartialEq, Eq)]
pub struct Table {
    pub entries: Vec<Entry>,
    /// The entry of each definition.
    pub definitions: Vec<usize>,
    /// The first entry of the goal.
    pub goal: usize,
    /// For each entry, the first entry behind all that belongs to it.
    pub behind: Vec<usize>,
}

/// What the next entry has to be.
#[derive(Clone, Copy)]
enum Expected {
    Definition,
    Expression { depth: usize, scope: usize },
    Parameter { scope: usize },
}

/// How many of the first bytes belong to the table, when more may follow.
pub fn length_in(input: &[u8]) -> usize {
    match header(input) {
        Some((_, n)) => input.len().min(HEADER + PER_ENTRY * n),
        None => input.len(),
    }
}

pub fn read(bytes: &[u8]) -> Result<Table, Refusal> {
    let (d, n) = sizes(bytes)?;
    let (kinds, operands) = bytes[HEADER..].split_at(n);
    let mut reader = Reader { kinds, operands, entries: Vec::new() };
    reader.read_all(d)?;
    let table = arrange(reader.entries, d);
    check_definition_calls(&table)?;
    Ok(table)
}

fn header(bytes: &[u8]) -> Option<(usize, usize)> {
    match bytes {
        [a, b, c, d, ..] => {
            Some((u16::from_le_bytes([*a, *b]) as usize, u16::from_le_bytes([*c, *d]) as usize))
        }
        _ => None,
    }
}

/// Refusals 1 and 2, in that order.
fn sizes(bytes: &[u8]) -> Result<(usize, usize), Refusal> {
    let (d, n) = header(bytes).ok_or(Refusal { number: 1, entry: 0 })?;
    if bytes.len() != HEADER + PER_ENTRY * n {
        return Err(Refusal { number: 1, entry: 0 });
    }
    if d > MOST_DEFINITIONS || n == 0 || n > MOST_ENTRIES {
        return Err(Refusal { number: 2, entry: 0 });
    }
    Ok((d, n))
}

struct Reader<'a> {
    kinds: &'a [u8],
    operands: &'a [u8],
    entries: Vec<Entry>,
}

impl Reader<'_> {
    /// Refusals 5, 3, 4, 6 and 7, entry by entry, then 5 for what is left over.
    fn read_all(&mut self, definitions: usize) -> Result<(), Refusal> {
        let mut stack = vec![Expected::Expression { depth: 1, scope: 0 }];
        stack.extend(vec![Expected::Definition; definitions]);
        while let Some(expected) = stack.pop() {
            let entry = self.entries.len();
            let read =
                self.read_one(entry, expected).map_err(|number| Refusal { number, entry })?;
            push_followers(&mut stack, expected, read);
            self.entries.push(read);
        }
        match self.entries.len() {
            read if read < self.kinds.len() => Err(Refusal { number: 5, entry: read }),
            _ => Ok(()),
        }
    }

    fn read_one(&self, at: usize, expected: Expected) -> Result<Entry, u8> {
        let kind = *self.kinds.get(at).ok_or(5)?;
        if !may_stand(kind, expected) {
            return Err(3);
        }
        let scope = scope_of(expected);
        let entry = decode(kind, self.operand(at), scope).ok_or(4)?;
        if let Expected::Expression { depth, .. } = expected {
            if depth > MOST_DEPTH {
                return Err(6);
            }
        }
        match entry {
            Entry::Variable(number) if number >= scope => Err(7),
            Entry::Sequence { .. } | Entry::Prune { .. } if scope >= MOST_IN_SCOPE => Err(7),
            _ => Ok(entry),
        }
    }

    fn operand(&self, at: usize) -> u32 {
        let four = &self.operands[4 * at..4 * at + 4];
        u32::from_le_bytes([four[0], four[1], four[2], four[3]])
    }
}

fn may_stand(kind: u8, expected: Expected) -> bool {
    match expected {
        Expected::Definition => kind == 6,
        Expected::Expression { .. } => kind <= 5,
        Expected::Parameter { .. } => kind == 7 || kind == 8,
    }
}

fn scope_of(expected: Expected) -> usize {
    match expected {
        Expected::Definition => 0,
        Expected::Expression { scope, .. } | Expected::Parameter { scope } => scope,
    }
}

/// The entry that kind and operand name, unless the operand breaks its row.
fn decode(kind: u8, operand: u32, scope: usize) -> Option<Entry> {
    let low = operand & 0xffff;
    let count = (operand >> 16) as usize;
    let entry = match kind {
        0 => Entry::Stop,
        1 => Entry::SiteCall { site: low, count },
        2 => Entry::DefinitionCall { definition: low as usize, count },
        3 => Entry::Fork,
        4 => Entry::Sequence { binds: scope },
        5 => Entry::Prune { binds: scope },
        6 => Entry::Definition { formals: operand as usize },
        7 => Entry::Variable(operand as usize),
        _ => Entry::Constant(operand as i32),
    };
    let fits = match entry {
        Entry::Stop | Entry::Fork | Entry::Sequence { .. } | Entry::Prune { .. } => operand == 0,
        Entry::SiteCall { site, count } => sites::is_known(site) && sites::count_fits(site, count),
        Entry::DefinitionCall { count, .. } => count <= sites::MOST_PARAMETERS,
        Entry::Definition { formals } => formals <= sites::MOST_PARAMETERS,
        Entry::Variable(_) | Entry::Constant(_) => true,
    };
    fits.then_some(entry)
}

/// Pushes what must follow, the last first, since the stack hands back the newest.
fn push_followers(stack: &mut Vec<Expected>, at: Expected, entry: Entry) {
    let scope = scope_of(at);
    let depth = match at {
        Expected::Expression { depth, .. } => depth + 1,
        _ => 1,
    };
    let side = |scope| Expected::Expression { depth, scope };
    match entry {
        Entry::Stop | Entry::Variable(_) | Entry::Constant(_) => {}
        Entry::SiteCall { count, .. } | Entry::DefinitionCall { count, .. } => {
            stack.extend(vec![Expected::Parameter { scope }; count])
        }
        Entry::Fork => stack.extend([side(scope), side(scope)]),
        // x is in scope in g, which is read second.
        Entry::Sequence { .. } => stack.extend([side(scope + 1), side(scope)]),
        // x is in scope in f, which is read first.
        Entry::Prune { .. } => stack.extend([side(scope), side(scope + 1)]),
        Entry::Definition { formals } => stack.push(side(formals)),
    }
}

fn arrange(entries: Vec<Entry>, definitions: usize) -> Table {
    let behind = find_behind(&entries);
    let mut starts = Vec::new();
    let mut at = 0;
    for _ in 0..definitions {
        starts.push(at);
        at = behind[at];
    }
    Table { entries, definitions: starts, goal: at, behind }
}

/// From the last entry to the first: jump over each follower in turn.
fn find_behind(entries: &[Entry]) -> Vec<usize> {
    let mut behind = vec![0; entries.len()];
    for at in (0..entries.len()).rev() {
        let mut end = at + 1;
        for _ in 0..entries[at].followers() {
            end = behind[end];
        }
        behind[at] = end;
    }
    behind
}

/// Refusal 8, at the first entry that earns it.
fn check_definition_calls(table: &Table) -> Result<(), Refusal> {
    let formals = |definition: usize| -> Option<usize> {
        let start = *table.definitions.get(definition)?;
        match table.entries[start] {
            Entry::Definition { formals } => Some(formals),
            _ => None,
        }
    };
    let wrong = table.entries.iter().position(|entry| match *entry {
        Entry::DefinitionCall { definition, count } => formals(definition) != Some(count),
        _ => false,
    });
    match wrong {
        Some(entry) => Err(Refusal { number: 8, entry }),
        None => Ok(()),
    }
}
