//! Refused tables: each number from 1 to 8, alone and where two meet.

use super::rows::*;
use super::Sample;
use crate::syntax::{encode, Row};

pub fn short() -> Vec<Sample> {
    let mut samples = lengths();
    samples.extend(sizes());
    samples.extend(kinds());
    samples.extend(operands());
    samples.extend(ends());
    samples.extend(depths());
    samples.extend(scopes());
    samples.extend(definitions());
    samples
}

fn lengths() -> Vec<Sample> {
    let one = encode(0, &[STOP]);
    let example = prune(give(0), fork(site(16, &[constant(5)]), site(17, &[])));
    let refused = |name: &str, bytes: &[u8]| refused_bytes(name, bytes.to_vec(), 1, 0);
    vec![
        refused("no byte", &[]),
        refused("3 bytes", &[0, 0, 1]),
        refused("a byte too many", &[&one[..], &[0]].concat()),
        refused("a byte too few", &one[..8]),
        refused("the example, cut short", &encode(0, &example)[..20]),
        refused("N = 1, an operand of 3 bytes", &[0, 0, 1, 0, 0, 0, 0, 0]),
    ]
}

fn sizes() -> Vec<Sample> {
    let bodies = [define(0, stop()).repeat(33), stop()].concat();
    vec![
        refused("N = 0", 0, &[], 2, 0),
        refused("D = 33", 33, &bodies, 2, 0),
        refused("N = 513", 0, &[STOP; 513], 2, 0),
        refused("D = 256", 256, &[STOP], 2, 0),
    ]
}

fn kinds() -> Vec<Sample> {
    vec![
        refused("kind 9", 0, &[(9, 0)], 3, 0),
        refused("a definition for the goal", 0, &define(0, stop()), 3, 0),
        refused("a variable for an expression", 0, &sequence(stop(), vec![variable(0)]), 3, 2),
        refused("an expression for a parameter", 0, &site(0, &[STOP]), 3, 1),
        refused("an expression for a definition", 1, &[STOP, STOP], 3, 0),
        refused("kind 255", 0, &fork(stop(), vec![(255, 0)]), 3, 2),
    ]
}

fn operands() -> Vec<Sample> {
    let five: Vec<Row> = [vec![(1, 0x0005_0010)], vec![constant(0); 5]].concat();
    vec![
        refused("stop with an operand", 0, &[(0, 1)], 4, 0),
        refused("site 8", 0, &site(8, &[]), 4, 0),
        refused("site 1024", 0, &site(1024, &[]), 4, 0),
        refused("signal with one", 0, &fork(stop(), site(3, &[constant(0)])), 4, 2),
        refused("five formals", 1, &[define(5, stop()), stop()].concat(), 4, 0),
        refused("outside site with five", 0, &five, 4, 0),
        refused("sequence with an operand", 0, &[(SEQUENCE, 2), STOP, STOP], 4, 0),
        refused("definition call with five", 0, &[(2, 0x0005_0000)], 4, 0),
    ]
}

fn ends() -> Vec<Sample> {
    let body = define(0, stop());
    vec![
        refused("fork with one side", 0, &[(FORK, 0), STOP], 5, 2),
        refused("add with one parameter", 0, &[(1, ADD), constant(1)], 5, 2),
        refused("no goal", 1, &body, 5, 2),
        refused("a goal for the second definition", 2, &[body, stop(), stop()].concat(), 3, 2),
        refused("two goals", 0, &[STOP, STOP], 5, 1),
        refused("an unknown kind left", 0, &[fork(stop(), stop()), vec![(9, 9)]].concat(), 5, 3),
    ]
}

/// The right side of the innermost of 23 forks has depth 24, and what it joins 25.
fn depths() -> Vec<Sample> {
    let inside = |inner| right_sides(FORK, 23, inner);
    let sequences = sequence(stop(), sequence(stop(), stop()));
    vec![
        refused("depth 25", 0, &inside(fork(stop(), stop())), 6, 47),
        refused("depth 25 and 26, sequences", 0, &inside(sequences), 6, 47),
        refused("3 before 6", 0, &inside(fork(vec![(9, 0)], stop())), 3, 47),
        refused("4 before 6", 0, &inside(fork(site(8, &[]), stop())), 4, 47),
    ]
}

fn scopes() -> Vec<Sample> {
    let last = sequence(stop(), give(u32::MAX));
    let binders = |count| right_sides(SEQUENCE, count, stop());
    vec![
        refused("nothing in scope", 0, &give(0), 7, 1),
        refused("left of a sequence", 0, &sequence(give(0), stop()), 7, 2),
        refused("right of a prune", 0, &prune(stop(), give(0)), 7, 3),
        refused("9 in scope", 0, &binders(9), 7, 16),
        refused("a formal too many", 1, &[define(1, give(1)), stop()].concat(), 7, 2),
        refused("4 formals and 5 binders", 1, &[define(4, binders(5)), stop()].concat(), 7, 9),
        refused("variable 4294967295", 0, &fork(stop(), last), 7, 5),
    ]
}

fn definitions() -> Vec<Sample> {
    let one = |formals, body, goal| [define(formals, body), goal].concat();
    let too_many = fork(stop(), call(0, &[constant(0)]));
    let second = fork(call(0, &[]), call(1, &[constant(3)]));
    let second = [define(0, stop()), define(2, stop()), second].concat();
    vec![
        refused("no definition", 0, &call(0, &[]), 8, 0),
        refused("a parameter too few", 1, &one(1, stop(), call(0, &[])), 8, 2),
        refused("missing, in a body", 1, &one(0, call(1, &[]), call(0, &[])), 8, 1),
        refused("too few, in a body", 1, &one(1, call(0, &[]), too_many), 8, 1),
        refused("a leftover before 8", 0, &[call(0, &[]), stop()].concat(), 5, 1),
        refused("the second call", 2, &second, 8, 6),
    ]
}

/// One more than there may be, and where two refusals meet at one entry.
pub fn limits() -> Vec<Sample> {
    let left_sides = (0..24).fold(stop(), |f, _| fork(f, stop()));
    let prunes = (0..9).fold(stop(), |f, _| prune(f, stop()));
    let bound = right_sides(SEQUENCE, 8, right_sides(FORK, 15, prune(stop(), stop())));
    let deeper = right_sides(SEQUENCE, 8, right_sides(FORK, 15, fork(prunes.clone(), stop())));
    let body = |body| [define(0, body), stop()].concat();
    vec![
        refused("depth 25, left sides", 0, &left_sides, 6, 24),
        refused("depth 25, in a body", 1, &body(left_sides.clone()), 6, 25),
        refused("9 in scope, prunes", 0, &prunes, 7, 8),
        refused("a ninth at depth 24", 0, &bound, 7, 46),
        refused("6 before 7", 0, &deeper, 6, 47),
        refused("3 before 4", 0, &[(6, 9)], 3, 0),
        refused("4 before 7", 0, &right_sides(SEQUENCE, 8, vec![(PRUNE, 1)]), 4, 16),
        refused("5 before 6", 0, &[(FORK, 0); 24], 5, 24),
        refused("7 before a leftover", 0, &[give(0), stop()].concat(), 7, 1),
        refused("rwait without a parameter", 0, &site(7, &[]), 4, 0),
        refused("rwait with two", 0, &fork(stop(), site(7, &[constant(1); 2])), 4, 2),
        refused("site 8 with one", 0, &site(8, &[constant(1)]), 4, 0),
        refused("D = 33 and N = 0", 33, &[], 2, 0),
        refused_bytes("1 before 2", vec![33, 0, 0, 0, 0], 1, 0),
    ]
}
