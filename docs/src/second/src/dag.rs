//! The dag: first every node gets its number, then every node is written.
//!
//! A worklist holds entries together with the node that they lead to, so nothing calls itself.

use crate::table::{Entry, Table};

#[derive(Clone, Copy, Debug, PartialEq, Eq)]
pub enum Parameter {
    Variable(usize),
    Constant(i32),
}

#[derive(Clone, Debug, PartialEq, Eq)]
pub enum Node {
    /// No node at all; no table makes it, and the index rules refuse it.
    Unknown,
    Stop,
    SiteCall {
        site: u32,
        parameters: Vec<Parameter>,
        next: usize,
    },
    DefinitionCall {
        definition: usize,
        parameters: Vec<Parameter>,
        next: usize,
    },
    Fork {
        left: usize,
        right: usize,
    },
    Assign {
        variable: usize,
        next: usize,
    },
    Remove {
        variable: usize,
        next: usize,
    },
    Where {
        variable: usize,
        left: usize,
        right: usize,
    },
    Choke,
    Return,
    Publish,
}

impl Node {
    pub fn parameters(&self) -> &[Parameter] {
        match self {
            Node::SiteCall { parameters, .. } | Node::DefinitionCall { parameters, .. } => {
                parameters
            }
            _ => &[],
        }
    }

    /// The nodes that this node names.
    pub fn successors(&self) -> [Option<usize>; 2] {
        match *self {
            Node::SiteCall { next, .. }
            | Node::DefinitionCall { next, .. }
            | Node::Assign { next, .. }
            | Node::Remove { next, .. } => [Some(next), None],
            Node::Fork { left, right } | Node::Where { left, right, .. } => {
                [Some(left), Some(right)]
            }
            Node::Unknown | Node::Stop | Node::Choke | Node::Return | Node::Publish => [None, None],
        }
    }

    /// The variable that this node itself binds or empties.
    pub fn variable(&self) -> Option<usize> {
        match *self {
            Node::Assign { variable, .. }
            | Node::Remove { variable, .. }
            | Node::Where { variable, .. } => Some(variable),
            _ => None,
        }
    }
}

#[derive(Clone, Copy, Debug, PartialEq, Eq)]
pub struct Definition {
    pub first: usize,
    pub formals: usize,
}

#[derive(Clone, Debug, PartialEq, Eq)]
pub struct Dag {
    pub nodes: Vec<Node>,
    pub definitions: Vec<Definition>,
    /// The node at which the goal begins.
    pub goal: usize,
}

impl Dag {
    /// Whether from this node on there are only removes, and then a return. It looks at as many nodes
    /// as there are: no table's removes go in a circle, but those of another dag may.
    pub fn only_removes_to_return(&self, first: usize) -> bool {
        let behind = |at: &usize| match self.nodes[*at] {
            Node::Remove { next, .. } => Some(next),
            _ => None,
        };
        let mut seen = std::iter::successors(Some(first), behind).take(self.nodes.len());
        seen.any(|at| self.nodes[at] == Node::Return)
    }
}

/// A stretch of entries with a sink of its own: a definition's body, or the goal.
struct Body {
    start: usize,
    end: usize,
    sink: Node,
}

/// The number of each entry's first node, and of each body's sink.
struct Numbers {
    of_entry: Vec<usize>,
    of_sink: Vec<usize>,
    total: usize,
}

pub fn build(table: &Table) -> Dag {
    let bodies = bodies(table);
    let numbers = number(table, &bodies);
    let mut nodes = vec![Node::Unknown; numbers.total];
    let mut todo = Vec::new();
    for (body, &sink) in bodies.iter().zip(&numbers.of_sink) {
        nodes[sink] = body.sink.clone();
        todo.push((body.start, sink));
    }
    while let Some((entry, next)) = todo.pop() {
        write(table, &numbers, entry, next, &mut nodes, &mut todo);
    }
    Dag {
        nodes,
        definitions: definitions(table, &numbers),
        goal: begin(table, &numbers, table.goal),
    }
}

fn bodies(table: &Table) -> Vec<Body> {
    let mut bodies: Vec<Body> = table
        .definitions
        .iter()
        .map(|&start| Body { start: start + 1, end: table.behind[start], sink: Node::Return })
        .collect();
    bodies.push(Body { start: table.goal, end: table.entries.len(), sink: Node::Publish });
    bodies
}

/// Nodes are numbered by entry; a sink follows the last entry of its body.
fn number(table: &Table, bodies: &[Body]) -> Numbers {
    let mut of_entry = vec![0; table.entries.len()];
    let mut of_sink = Vec::new();
    let mut total = 0;
    for body in bodies {
        let range = body.start..body.end;
        for (first, entry) in of_entry[range.clone()].iter_mut().zip(&table.entries[range]) {
            *first = total;
            total += nodes_made(entry);
        }
        of_sink.push(total);
        total += 1;
    }
    Numbers { of_entry, of_sink, total }
}

fn nodes_made(entry: &Entry) -> usize {
    match entry {
        Entry::Stop | Entry::SiteCall { .. } | Entry::DefinitionCall { .. } | Entry::Fork => 1,
        Entry::Sequence { .. } => 2,
        Entry::Prune { .. } => 3,
        Entry::Definition { .. } | Entry::Variable(_) | Entry::Constant(_) => 0,
    }
}

/// Where a token enters an expression. A sequence has no node in front of its f.
fn begin(table: &Table, numbers: &Numbers, mut entry: usize) -> usize {
    while let Entry::Sequence { .. } = table.entries[entry] {
        entry += 1;
    }
    numbers.of_entry[entry]
}

fn definitions(table: &Table, numbers: &Numbers) -> Vec<Definition> {
    let one = |&start: &usize| Definition {
        first: begin(table, numbers, start + 1),
        formals: match table.entries[start] {
            Entry::Definition { formals } => formals,
            _ => 0,
        },
    };
    table.definitions.iter().map(one).collect()
}

/// Writes the nodes of one entry that leads to `next`, and puts f and g on the worklist.
fn write(
    table: &Table,
    numbers: &Numbers,
    entry: usize,
    next: usize,
    nodes: &mut [Node],
    todo: &mut Vec<(usize, usize)>,
) {
    let own = numbers.of_entry[entry];
    let f = entry + 1;
    let begin = |entry| begin(table, numbers, entry);
    match table.entries[entry] {
        Entry::Stop => nodes[own] = Node::Stop,
        Entry::SiteCall { site, count } => {
            nodes[own] = Node::SiteCall { site, parameters: parameters(table, f, count), next }
        }
        Entry::DefinitionCall { definition, count } => {
            nodes[own] =
                Node::DefinitionCall { definition, parameters: parameters(table, f, count), next }
        }
        Entry::Fork => {
            let g = table.behind[f];
            nodes[own] = Node::Fork { left: begin(f), right: begin(g) };
            todo.extend([(f, next), (g, next)]);
        }
        Entry::Sequence { binds: variable } => {
            let (assign, remove, g) = (own, own + 1, table.behind[f]);
            nodes[assign] = Node::Assign { variable, next: begin(g) };
            nodes[remove] = Node::Remove { variable, next };
            todo.extend([(f, assign), (g, remove)]);
        }
        Entry::Prune { binds: variable } => {
            let (where_, remove, choke, g) = (own, own + 1, own + 2, table.behind[f]);
            nodes[where_] = Node::Where { variable, left: begin(f), right: begin(g) };
            nodes[remove] = Node::Remove { variable, next };
            nodes[choke] = Node::Choke;
            todo.extend([(f, remove), (g, choke)]);
        }
        // Bodies start behind their definition, and parameters go with their call.
        Entry::Definition { .. } | Entry::Variable(_) | Entry::Constant(_) => {}
    }
}

fn parameters(table: &Table, first: usize, count: usize) -> Vec<Parameter> {
    let one = |entry: &Entry| match *entry {
        Entry::Variable(number) => Some(Parameter::Variable(number)),
        Entry::Constant(value) => Some(Parameter::Constant(value)),
        _ => None,
    };
    table.entries[first..first + count].iter().filter_map(one).collect()
}
