//! Each clause on the dag: kinds, sites, counts, nodes, slots.

use super::*;

/// The record first, which keeps its rules; then the start, which tests the dag alone.
const CALLS: [Call; 3] = [Call::Step(0), Call::Answer(0, 7), Call::Start];

fn broken(name: &str, edit: Edit) -> Trial {
    of(Expected::Broken, name, edited(middle(), edit))
}

fn near(name: &str, edit: Edit) -> Trial {
    of(Expected::Near, name, edited(middle(), edit))
}

/// Where all are to be refused a clock move is one of them, and the start gets a blank record, which
/// it leaves.
fn of(expected: Expected, name: &str, draft: Draft) -> Trial {
    let [before @ .., start] = CALLS.map(Row::Call);
    let mut made = draft.set();
    made.extend(before);
    if expected == Expected::Broken {
        made.push(Row::Call(Call::Advance(0)));
        made.extend(draft.clear());
    }
    made.push(start);
    rows(expected, name, made)
}

pub fn list() -> Vec<Trial> {
    [kinds(), unused_words(), sites(), counts(), built_ins(), nodes(), slots()]
        .into_iter()
        .flatten()
        .collect()
}

fn kinds() -> Vec<Trial> {
    vec![
        broken("a node of kind 10", |g| g.word(STOP, 0, 10)),
        broken("a node of the largest kind", |g| g.word(STOP, 0, u32::MAX)),
        near("a node of kind 9", |g| g.word(STOP, 0, 9)),
        broken("a parameter of kind 6", |g| g.word(CALL_OUT, 4, 6)),
        broken("a parameter of kind 9", |g| g.word(CALL_OUT, 4, 9)),
        broken("a parameter of kind 0", |g| {
            g.word(CALL_OUT, 4, 0);
            g.word(CALL_OUT, 5, 0);
        }),
        near("a parameter of kind 7", |g| g.word(CALL_OUT, 4, 7)),
    ]
}

fn unused_words() -> Vec<Trial> {
    vec![
        broken("a stop with a second word", |g| g.word(STOP, 1, 1)),
        broken("a return with a third word", |g| g.word(RETURN, 2, 1)),
        broken("a choke with a fourth word", |g| g.word(CHOKE, 3, 1)),
        broken("a publish with a last word", |g| g.word(PUBLISH, 11, 1)),
        broken("a fork with a fourth word", |g| g.word(FORK, 3, 1)),
        broken("a fork with a parameter", |g| g.word(FORK, 4, 7)),
        broken("an assign with a fourth word", |g| g.word(ASSIGN, 3, 1)),
        broken("a remove with a parameter's word", |g| g.word(REMOVE, 5, 1)),
        broken("a where with a parameter", |g| g.word(WHERE, 10, 8)),
        near("a where with a fourth word", |g| g.word(WHERE, 3, 1)),
        broken("a site call with a word behind its parameters", |g| g.word(CALL_OUT, 7, 1)),
        broken("a definition call with a parameter behind the last", |g| g.word(CALL, 6, 7)),
        near("a parameter's word that is as large as can be", |g| g.word(CALL_OUT, 5, u32::MAX)),
        near("words behind the last node", |g| g.word(NODES, 0, 99)),
        near("words behind the last definition", |g| g.words[5] = 9999),
    ]
}

fn sites() -> Vec<Trial> {
    vec![
        broken("site 8", |g| g.word(CALL_OUT, 1, 8)),
        broken("site 15", |g| g.word(CALL_OUT, 1, 15)),
        broken("site 1024", |g| g.word(CALL_OUT, 1, 1024)),
        broken("site 65552, which is 16 in its low bits", |g| g.word(CALL_OUT, 1, 65_552)),
        near("site 7", |g| g.word(CALL_OUT, 1, 7)),
        near("site 16", |g| g.word(CALL_OUT, 1, 16)),
        near("site 1023", |g| g.word(CALL_OUT, 1, 1023)),
    ]
}

fn counts() -> Vec<Trial> {
    let call = |count| Node::DefinitionCall {
        definition: 0,
        parameters: vec![constant(1); count],
        next: REMOVE,
    };
    let mut list = vec![
        broken("no nodes", |g| g.words[0] = 0),
        broken("1023 nodes", |g| g.words[0] = 1023),
        broken("as many nodes as a word can say", |g| g.words[0] = u32::MAX),
        near("1022 nodes", |g| g.words[0] = 1022),
        broken("33 definitions", |g| g.words[1] = 33),
        broken("as many definitions as a word can say", |g| g.words[1] = u32::MAX),
        near("32 definitions", |g| g.words[1] = 32),
        broken("a definition with 5 formals", |g| g.words[4] = 5),
        near("a definition with 4 formals", |g| g.words[4] = 4),
        broken("an outside call with 5 parameters", |g| {
            g.node(CALL_OUT, site(17, &[constant(1); 4], CHOKE));
            g.word(CALL_OUT, 3, 5);
        }),
        near("an outside call with 4 parameters", |g| {
            g.node(CALL_OUT, site(17, &[constant(1); 4], CHOKE))
        }),
        broken("an outside call with one parameter more than it has", |g| g.word(CALL_OUT, 3, 2)),
        broken("an outside call with one parameter fewer than it has", |g| g.word(CALL_OUT, 3, 0)),
    ];
    for (count, name) in [(0, "no parameter"), (4, "4 parameters")] {
        let mut draft = middle();
        draft.node(CALL, call(count));
        let name = format!("a definition call with {name}, the definition having one formal");
        list.push(of(Expected::Near, &name, draft));
    }
    let mut draft = middle();
    draft.node(CALL, call(4));
    draft.word(CALL, 3, 5);
    list.push(of(Expected::Broken, "a definition call with 5 parameters", draft));
    list
}

/// Each built-in with its own count, with one fewer and with one more.
fn built_ins() -> Vec<Trial> {
    let own = [("let", 1), ("ift", 1), ("iff", 1), ("signal", 0), ("add", 2), ("less", 2)];
    let mut list = Vec::new();
    for (number, (name, own)) in own.into_iter().chain([("equal", 2), ("rwait", 1)]).enumerate() {
        for count in own.max(1) - 1..=own + 1 {
            let mut draft = middle();
            draft.node(CALL_OUT, site(number as u32, &vec![constant(3); count], CHOKE));
            let expected = if count == own { Expected::Near } else { Expected::Broken };
            list.push(of(expected, &format!("{name} with {count}"), draft));
        }
    }
    list
}

fn nodes() -> Vec<Trial> {
    const OUT: u32 = NODES as u32;
    const LAST: u32 = STOP as u32;
    vec![
        broken("the goal at the number of nodes", |g| g.words[2] = OUT),
        near("the goal at the last node", |g| g.words[2] = LAST),
        broken("a definition at the number of nodes", |g| g.words[3] = OUT),
        near("a definition at the last node", |g| g.words[3] = LAST),
        broken("a site call toward no node", |g| g.word(CALL_OUT, 2, OUT)),
        near("a site call toward the last node", |g| g.word(CALL_OUT, 2, LAST)),
        broken("a definition call toward no node", |g| g.word(CALL, 2, OUT)),
        near("a definition call toward the last node", |g| g.word(CALL, 2, LAST)),
        broken("a fork whose left is no node", |g| g.word(FORK, 1, OUT)),
        broken("a fork whose right is no node", |g| g.word(FORK, 2, OUT)),
        near("a fork of the last node twice", |g| {
            g.word(FORK, 1, LAST);
            g.word(FORK, 2, LAST);
        }),
        broken("an assign toward no node", |g| g.word(ASSIGN, 2, OUT)),
        near("an assign toward the last node", |g| g.word(ASSIGN, 2, LAST)),
        broken("a remove toward no node", |g| g.word(REMOVE, 2, OUT)),
        near("a remove toward the last node", |g| g.word(REMOVE, 2, LAST)),
        broken("a where whose left is no node", |g| g.word(WHERE, 1, OUT)),
        broken("a where whose right is no node", |g| g.word(WHERE, 2, OUT)),
        near("a where of the last node twice", |g| {
            g.word(WHERE, 1, LAST);
            g.word(WHERE, 2, LAST);
        }),
        broken("a next node that is one in its low 16 bits", |g| g.word(REMOVE, 2, 65_536 + 9)),
        broken("a call of a definition that is missing", |g| g.word(CALL, 1, 1)),
        near("a call of the second of two definitions", |g| {
            g.word(CALL, 1, 1);
            g.words[1] = 2;
        }),
    ]
}

fn slots() -> Vec<Trial> {
    vec![
        broken("an assign of variable 8", |g| g.word(ASSIGN, 1, 8)),
        near("an assign of variable 7", |g| g.word(ASSIGN, 1, 7)),
        broken("a remove of variable 8", |g| g.word(REMOVE, 1, 8)),
        near("a remove of variable 7", |g| g.word(REMOVE, 1, 7)),
        broken("a where of variable 8", |g| g.word(WHERE, 3, 8)),
        near("a where of variable 7", |g| g.word(WHERE, 3, 7)),
        broken("a site call of variable 8", |g| g.node(CALL_OUT, site(17, &[variable(8)], CHOKE))),
        near("a site call of variable 7", |g| g.node(CALL_OUT, site(17, &[variable(7)], CHOKE))),
        broken("a definition call of variable 8", |g| g.word(CALL, 5, 8)),
        near("a definition call of variable 7", |g| g.word(CALL, 5, 7)),
    ]
}
