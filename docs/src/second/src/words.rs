//! A dag as the array of words that a host lends: a head, then twelve words for each node.

use crate::dag::{Dag, Definition, Node, Parameter};
use crate::rules::MOST_NODES;
use crate::sites::MOST_PARAMETERS;
use crate::table::MOST_DEFINITIONS;

/// Where the nodes begin, and how many words each has.
pub const HEAD: usize = 67;
pub const ROW: usize = 12;
pub const WORDS: usize = HEAD + ROW * MOST_NODES;

const VARIABLE: u32 = 7;
const CONSTANT: u32 = 8;

/// The dag that the words say, or `None` if they claim more nodes or definitions than there can be.
pub fn read(words: &[u32]) -> Option<Dag> {
    let (nodes, definitions) = (words[0] as usize, words[1] as usize);
    if nodes > MOST_NODES || definitions > MOST_DEFINITIONS {
        return None;
    }
    let pairs = words[3..].chunks(2).take(definitions);
    Some(Dag {
        nodes: words[HEAD..].chunks(ROW).take(nodes).map(read_node).collect(),
        definitions: pairs
            .map(|pair| Definition { first: pair[0] as usize, formals: pair[1] as usize })
            .collect(),
        goal: words[2] as usize,
    })
}

/// A row with a word that its kind does not use is no node.
fn read_node(row: &[u32]) -> Node {
    let (left, right) = (row[1] as usize, row[2] as usize);
    let bare = row[4..].iter().all(|word| *word == 0);
    match row[..4] {
        [0, 0, 0, 0] if bare => Node::Stop,
        [1, site, _, count] => match read_parameters(&row[4..], count) {
            Some(parameters) => Node::SiteCall { site, parameters, next: right },
            None => Node::Unknown,
        },
        [2, _, _, count] => match read_parameters(&row[4..], count) {
            Some(parameters) => Node::DefinitionCall { definition: left, parameters, next: right },
            None => Node::Unknown,
        },
        [3, _, _, 0] if bare => Node::Fork { left, right },
        [4, _, _, 0] if bare => Node::Assign { variable: left, next: right },
        [5, _, _, 0] if bare => Node::Remove { variable: left, next: right },
        [6, _, _, variable] if bare => Node::Where { variable: variable as usize, left, right },
        [7, 0, 0, 0] if bare => Node::Choke,
        [8, 0, 0, 0] if bare => Node::Return,
        [9, 0, 0, 0] if bare => Node::Publish,
        _ => Node::Unknown,
    }
}

fn read_parameters(words: &[u32], count: u32) -> Option<Vec<Parameter>> {
    let (there, behind) = words.split_at_checked(2 * (count.min(99) as usize))?;
    if behind.iter().any(|word| *word != 0) {
        return None;
    }
    let one = |pair: &[u32]| match pair[0] {
        VARIABLE => Some(Parameter::Variable(pair[1] as usize)),
        CONSTANT => Some(Parameter::Constant(pair[1] as i32)),
        _ => None,
    };
    there.chunks(2).map(one).collect()
}

/// The words of a dag; those behind the last node are 0.
pub fn write(dag: &Dag) -> Vec<u32> {
    let mut words = vec![0; WORDS];
    words[0] = dag.nodes.len() as u32;
    words[1] = dag.definitions.len() as u32;
    words[2] = dag.goal as u32;
    for (pair, definition) in words[3..HEAD].chunks_mut(2).zip(&dag.definitions) {
        pair.copy_from_slice(&[definition.first as u32, definition.formals as u32]);
    }
    for (row, node) in words[HEAD..].chunks_mut(ROW).zip(&dag.nodes) {
        row.copy_from_slice(&node_words(node));
    }
    words
}

pub fn node_words(node: &Node) -> [u32; ROW] {
    let count = node.parameters().len() as u32;
    let [kind, a, b, c] = match *node {
        Node::Stop => [0; 4],
        Node::SiteCall { site, next, .. } => [1, site, next as u32, count],
        Node::DefinitionCall { definition, next, .. } => [2, definition as u32, next as u32, count],
        Node::Fork { left, right } => [3, left as u32, right as u32, 0],
        Node::Assign { variable, next } => [4, variable as u32, next as u32, 0],
        Node::Remove { variable, next } => [5, variable as u32, next as u32, 0],
        Node::Where { variable, left, right } => [6, left as u32, right as u32, variable as u32],
        Node::Choke => [7, 0, 0, 0],
        Node::Return => [8, 0, 0, 0],
        Node::Publish => [9, 0, 0, 0],
        Node::Unknown => [10, 0, 0, 0],
    };
    let mut row = [0; ROW];
    row[..4].copy_from_slice(&[kind, a, b, c]);
    for (pair, parameter) in row[4..].chunks_mut(2).take(MOST_PARAMETERS).zip(node.parameters()) {
        pair.copy_from_slice(&match *parameter {
            Parameter::Variable(number) => [VARIABLE, number as u32],
            Parameter::Constant(value) => [CONSTANT, value as u32],
        });
    }
    row
}
