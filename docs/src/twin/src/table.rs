//! From a job table to the dag's words.

use std::array;

/// The words of the dag's head, and of a node's row.
pub const HEAD: usize = 67;
pub const ROW: usize = 12;
pub const WORDS: usize = HEAD + ROW * 1022;
pub type Dag = [u32; WORDS];
pub type Row = [u32; ROW];

/// The row of a node.
pub fn row_of(dag: &Dag, node: u16) -> &Row {
    let at = HEAD + ROW * node as usize;
    dag[at..at + ROW].try_into().expect("twelve words")
}

/// A refused table: number and entry.
pub type Refused = (u8, usize);

const COUNTS: [u32; 8] = [1, 1, 1, 0, 2, 2, 2, 1];
const DEPTH: usize = 24;

/// May a call with so many parameters name this site?
pub fn takes(site: u32, count: u32) -> bool {
    match site {
        0..=7 => COUNTS[site as usize] == count,
        16..=1023 => count <= 4,
        _ => false,
    }
}

struct Entries<'a> {
    kinds: &'a [u8],
    operands: &'a [u8],
}

impl Entries<'_> {
    fn operand(&self, at: usize) -> u32 {
        let bytes = &self.operands[4 * at..4 * at + 4];
        u32::from_le_bytes(array::from_fn(|i| bytes[i]))
    }

    fn kind(&self, at: usize) -> Result<u8, Refused> {
        self.kinds.get(at).copied().ok_or((5, at))
    }

    /// Reads an expression: the entry behind it, and the number of its nodes.
    fn check(&self, left: usize, scope: usize, at: usize) -> Result<(usize, usize), Refused> {
        let kind = self.kind(at)?;
        if kind > 5 {
            return Err((3, at));
        }
        let operand = self.operand(at);
        let (low, count) = (operand & 0xffff, operand >> 16);
        let kept = match kind {
            1 => takes(low, count),
            2 => count <= 4,
            _ => operand == 0,
        };
        if !kept {
            return Err((4, at));
        }
        if left == 0 {
            return Err((6, at));
        }
        if kind >= 4 && scope == 8 {
            return Err((7, at));
        }
        match kind {
            0 => Ok((at + 1, 1)),
            1 | 2 => {
                let end = at + 1 + count as usize;
                for parameter in at + 1..end {
                    self.check_parameter(scope, parameter)?;
                }
                Ok((end, 1))
            }
            _ => {
                let own = kind as usize - 2;
                let (at, f) = self.check(left - 1, scope + (kind == 5) as usize, at + 1)?;
                let (at, g) = self.check(left - 1, scope + (kind == 4) as usize, at)?;
                Ok((at, own + f + g))
            }
        }
    }

    fn check_parameter(&self, scope: usize, at: usize) -> Result<(), Refused> {
        match self.kind(at)? {
            7 if self.operand(at) as usize >= scope => Err((7, at)),
            7 | 8 => Ok(()),
            _ => Err((3, at)),
        }
    }

    /// Compiles the expression at an entry toward a next node: its first node, the entry behind it, the next free node.
    fn compile(
        &self,
        dag: &mut Dag,
        scope: usize,
        at: usize,
        node: usize,
        next: usize,
    ) -> (usize, usize, usize) {
        let kind = self.kinds[at];
        let after = next as u32;
        match kind {
            0 => {
                put(dag, node, [0; 4]);
                (node, at + 1, node + 1)
            }
            1 | 2 => {
                let operand = self.operand(at);
                let count = (operand >> 16) as usize;
                put(dag, node, [kind as u32, operand & 0xffff, after, count as u32]);
                for (i, parameter) in (at + 1..at + 1 + count).enumerate() {
                    let word = 67 + 12 * node + 4 + 2 * i;
                    dag[word] = self.kinds[parameter] as u32;
                    dag[word + 1] = self.operand(parameter);
                }
                (node, at + 1 + count, node + 1)
            }
            3 => {
                let (f, at, free) = self.compile(dag, scope, at + 1, node + 1, next);
                let (g, at, free) = self.compile(dag, scope, at, free, next);
                put(dag, node, [3, f as u32, g as u32, 0]);
                (node, at, free)
            }
            4 => {
                let (f, at, free) = self.compile(dag, scope, at + 1, node + 2, node);
                let (g, at, free) = self.compile(dag, scope + 1, at, free, node + 1);
                put(dag, node, [4, scope as u32, g as u32, 0]);
                put(dag, node + 1, [5, scope as u32, after, 0]);
                (f, at, free)
            }
            _ => {
                let (f, at, free) = self.compile(dag, scope + 1, at + 1, node + 3, node + 1);
                let (g, at, free) = self.compile(dag, scope, at, free, node + 2);
                put(dag, node, [6, f as u32, g as u32, scope as u32]);
                put(dag, node + 1, [5, scope as u32, after, 0]);
                put(dag, node + 2, [7, 0, 0, 0]);
                (node, at, free)
            }
        }
    }
}

/// Writes a node's row; its parameters are left at 0.
fn put(dag: &mut Dag, node: usize, head: [u32; 4]) {
    let row = &mut dag[67 + 12 * node..79 + 12 * node];
    row[..4].copy_from_slice(&head);
    row[4..].fill(0);
}

/// Loads a table: the number of nodes of the dag that was written, or the refusal.
pub fn load(table: &[u8], dag: &mut Dag) -> Result<usize, Refused> {
    if table.len() < 4 {
        return Err((1, 0));
    }
    let definitions = u16::from_le_bytes([table[0], table[1]]) as usize;
    let n = u16::from_le_bytes([table[2], table[3]]) as usize;
    if table.len() != 4 + 5 * n {
        return Err((1, 0));
    }
    if definitions > 32 || !(1..=512).contains(&n) {
        return Err((2, 0));
    }
    let entries = Entries { kinds: &table[4..4 + n], operands: &table[4 + n..] };
    let mut formals = [0u32; 32];
    let mut sizes = [0usize; 33];
    let mut at = 0;
    for d in 0..definitions {
        if entries.kind(at)? != 6 {
            return Err((3, at));
        }
        formals[d] = entries.operand(at);
        if formals[d] > 4 {
            return Err((4, at));
        }
        (at, sizes[d]) = entries.check(DEPTH, formals[d] as usize, at + 1)?;
    }
    (at, sizes[definitions]) = entries.check(DEPTH, 0, at)?;
    if at < n {
        return Err((5, at));
    }
    for (at, _) in entries.kinds.iter().enumerate().filter(|(_, &kind)| kind == 2) {
        let operand = entries.operand(at);
        let (named, count) = ((operand & 0xffff) as usize, operand >> 16);
        if named >= definitions || formals[named] != count {
            return Err((8, at));
        }
    }
    let (mut at, mut node) = (0, 0);
    for d in 0..definitions {
        let sink = node + sizes[d];
        let (root, end, _) = entries.compile(dag, formals[d] as usize, at + 1, node, sink);
        put(dag, sink, [8, 0, 0, 0]);
        dag[3 + 2 * d] = root as u32;
        dag[4 + 2 * d] = formals[d];
        (at, node) = (end, sink + 1);
    }
    let sink = node + sizes[definitions];
    let (root, _, _) = entries.compile(dag, 0, at, node, sink);
    put(dag, sink, [9, 0, 0, 0]);
    dag[0] = sink as u32 + 1;
    dag[1] = definitions as u32;
    dag[2] = root as u32;
    Ok(sink + 1)
}
