//! Edge cases print what the paper says, or what was worked out by hand.

use second::edges::{edges, exact_steps, programs, ROOM};
use second::lines::{orcrun, MOST_INPUT};
use std::collections::BTreeSet;

#[test]
fn lines() {
    for edge in edges() {
        assert_eq!(orcrun(&edge.input), edge.lines, "{}", edge.name);
    }
}

/// One program prints more than it has room for, and its second piece is no part of the first. The
/// other's input is a run but for its last byte.
#[test]
fn stored_programs() {
    let programs = programs();
    for program in &programs {
        assert_eq!(orcrun(&program.input), program.lines, "{}", program.name);
    }
    let (first, second) = programs[0].lines.split_at(ROOM);
    assert!(!second.is_empty() && !first.contains(second));
    let run = orcrun(&programs[1].input[..MOST_INPUT]);
    assert!(run.starts_with("call 0 16\n") && programs[1].input.len() == MOST_INPUT + 1);
}

#[test]
fn names_differ() {
    let edges = edges();
    let names: BTreeSet<&str> = edges.iter().map(|edge| edge.name.as_str()).collect();
    assert_eq!(names.len(), edges.len());
}

/// The bytes that the paper gives for its example.
#[test]
fn example() {
    let mut bytes = vec![0, 0, 7, 0, 5, 1, 7, 3, 1, 8, 1];
    for word in [0, 0x0001_0000, 0, 0, 0x0001_0010, 5, 0x0000_0011, 1, 42, 0, 7] {
        bytes.extend(u32::to_le_bytes(word));
    }
    assert_eq!(edges()[0].input, bytes);
}

#[test]
fn exact() {
    for steps in (4..200).chain([2, 99_999, 100_000]) {
        let expected = format!("publish 0\nend {steps}\n");
        assert_eq!(orcrun(&exact_steps(steps).bytes()), expected);
    }
}
