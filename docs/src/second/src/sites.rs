//! The sites: which numbers there are, and what the built-in ones give.

/// Parameter counts of the built-in sites: let, ift, iff, signal, add, less, equal, rwait.
pub const BUILT_IN_COUNTS: [usize; 8] = [1, 1, 1, 0, 2, 2, 2, 1];

/// The built-in that replies with 0 when so much time has passed. The others reply at once.
pub const RWAIT: u32 = 7;

const FIRST_OUTSIDE: u32 = 16;
const LAST_OUTSIDE: u32 = 1023;

/// No call has more parameters, no definition more formals.
pub const MOST_PARAMETERS: usize = 4;

pub fn is_built_in(site: u32) -> bool {
    (site as usize) < BUILT_IN_COUNTS.len()
}

pub fn is_outside(site: u32) -> bool {
    (FIRST_OUTSIDE..=LAST_OUTSIDE).contains(&site)
}

pub fn is_known(site: u32) -> bool {
    is_built_in(site) || is_outside(site)
}

/// A built-in takes its own count, an outside site any count up to the most.
pub fn count_fits(site: u32, count: usize) -> bool {
    match BUILT_IN_COUNTS.get(site as usize) {
        Some(own) => count == *own,
        None => count <= MOST_PARAMETERS,
    }
}

/// What a built-in other than rwait gives; `None` is silence.
pub fn built_in(site: u32, values: &[i32]) -> Option<i32> {
    match (site, values) {
        (0, [v]) => Some(*v),
        (1, [v]) => (*v != 0).then_some(0),
        (2, [v]) => (*v == 0).then_some(0),
        (3, []) => Some(0),
        (4, [a, b]) => a.checked_add(*b),
        (5, [a, b]) => Some((a < b) as i32),
        (6, [a, b]) => Some((a == b) as i32),
        _ => None,
    }
}
