//! Accepted tables: small ones, each join in each other, and the largest.

use super::rows::*;
use super::Sample;

/// Their words are printed. Between them they have every kind of node, and four parameters of both
/// kinds at both kinds of call.
pub fn shown() -> Vec<Sample> {
    let inner = sequence(give(0), site(4, &[variable(0), variable(1)]));
    let right = site(6, &[constant(i32::MAX), constant(-2)]);
    let four = [variable(3), constant(i32::MIN), variable(0), constant(-1)];
    let first = define(4, fork(site(1023, &four), stop()));
    let second = define(1, call(0, &[variable(0), constant(7), variable(0), constant(0)]));
    let two = [first, second, call(1, &[constant(1)])].concat();
    vec![
        accepted("words: a sequence in a sequence", 0, &sequence(signal(), inner), 8),
        accepted("words: a fork in a prune", 0, &prune(fork(give(0), give(0)), right), 8),
        accepted("words: two definitions", 2, &two, 8),
    ]
}

pub fn small() -> Vec<Sample> {
    let sum = site(4, &[constant(i32::MAX), constant(-2)]);
    let two = define(2, fork(site(5, &[variable(0), variable(1)]), stop()));
    let two = [two, call(0, &[constant(1), constant(-1)])].concat();
    let example = prune(give(0), fork(site(16, &[constant(5)]), site(17, &[])));
    let calls = sequence(call(0, &[constant(-1)]), call(0, &[variable(0)]));
    let calls = [define(1, give(0)), define(0, call(1, &[])), calls].concat();
    let itself = [define(0, call(0, &[])), call(0, &[])].concat();
    let constants = [1, 2, 3, 4].map(constant);
    let bodies = [define(0, stop()).repeat(32), call(31, &[])].concat();
    let side = prune(site(6, &[variable(4), variable(5)]), stop());
    let sides = define(4, prune(side, sequence(stop(), give(4))));
    vec![
        accepted("a sequence", 0, &sequence(signal(), give(0)), 5),
        accepted("a prune", 0, &prune(give(0), sum), 6),
        accepted("a definition of two formals", 1, &two, 6),
        accepted("the example of the paper", 0, &example, 8),
        accepted("stop", 0, &stop(), 2),
        accepted("a definition that calls the next", 2, &calls, 9),
        accepted("depth 24", 0, &right_sides(FORK, 23, stop()), 48),
        accepted("8 in scope", 0, &right_sides(SEQUENCE, 8, stop()), 26),
        accepted("511 entries, forks", 0, &even(FORK, 256), 512),
        accepted("511 entries, prunes: 1,022 nodes", 0, &even(PRUNE, 256), 1022),
        accepted("a definition that calls itself", 1, &itself, 4),
        accepted("site 1023 with four", 0, &site(1023, &constants), 2),
        accepted("32 definitions", 32, &bodies, 66),
        accepted("both sides of a prune", 1, &[sides, call(0, &[constant(0); 4])].concat(), 15),
    ]
}

/// Each join in the left and in the right side of each join: a fork makes one node, a sequence two,
/// a prune three; then three calls, and publish.
pub fn nested() -> Vec<Sample> {
    let kinds = [("fork", FORK, 1), ("sequence", SEQUENCE, 2), ("prune", PRUNE, 3)];
    let mut samples = Vec::new();
    for (outer_name, outer, outer_nodes) in kinds {
        for (inner_name, inner, inner_nodes) in kinds {
            let nodes = outer_nodes + inner_nodes + 4;
            for (side, left) in [("left", true), ("right", false)] {
                let within = in_scope(outer, left);
                let call = |within| match within {
                    0 => signal(),
                    _ => give(within - 1),
                };
                let f = call(within + in_scope(inner, true));
                let pair = join(inner, f, call(within + in_scope(inner, false)));
                let other = call(in_scope(outer, !left));
                let (f, g) = if left { (pair, other) } else { (other, pair) };
                let name = format!("{inner_name} in the {side} side of a {outer_name}");
                samples.push(accepted(name, 0, &join(outer, f, g), nodes));
            }
        }
    }
    samples
}

/// How many variables a join puts in scope on its left or right side.
fn in_scope(kind: u8, left: bool) -> u32 {
    (kind == SEQUENCE && !left || kind == PRUNE && left) as u32
}

/// As much as there may be of something.
pub fn full() -> Vec<Sample> {
    let bodies: Rows = (0..32).flat_map(body_of_many).collect();
    let many = [bodies, call(31, &[constant(5)])].concat();
    let large = [define(0, even(FORK, 7)).repeat(32), filling(64)].concat();
    let left_sides = (0..23).fold(give(0), |f, _| fork(f, stop()));
    let prunes = (0..8).fold(give(7), |f, _| prune(f, stop()));
    let four = call(0, &[variable(1), constant(-1), variable(0), constant(i32::MIN)]);
    let goal = sequence(signal(), sequence(signal(), four));
    let four = [define(4, call(0, &[3, 2, 1, 0].map(variable))), goal].concat();
    vec![
        accepted("32 definitions of 0 to 4 formals", 32, &many, 130),
        accepted("512 entries, 32 definitions", 32, &large, 512),
        accepted("depth 24, left sides", 1, &[define(1, left_sides), stop()].concat(), 50),
        accepted("8 in scope, prunes", 0, &prunes, 34),
        accepted("four parameters of both kinds", 1, &four, 10),
        accepted(
            "rwait of a variable",
            0,
            &sequence(site(7, &[constant(-1)]), site(7, &[variable(0)])),
            5,
        ),
    ]
}

/// signal() | a call of the definition before it, or of itself. From 0 to 4 formals, and round.
fn body_of_many(own: u32) -> Rows {
    let formals = |definition: u32| definition % 5;
    let before = own.saturating_sub(1);
    let parameter = |number| match number < formals(own) {
        true => variable(number),
        false => constant(-9),
    };
    let parameters: Rows = (0..formals(before)).map(parameter).collect();
    define(formals(own), fork(signal(), call(before, &parameters)))
}
