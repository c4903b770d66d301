//! The jobs that are timed.

/// The example of the scope paper: let(x) <x< (site16(5) | site17()), answers (1, 42) and (0, 7).
pub fn example() -> Vec<u8> {
    let rows = [(5, 0), (1, 1 << 16), (7, 0), (3, 0), (1, 16 | 1 << 16), (8, 5), (1, 17)];
    let mut job = encode(0, &rows);
    job.extend(record(1, 42));
    job.extend(record(0, 7));
    job
}

/// As many records as an input holds beside the table of `answers`.
pub const RECORDS: usize = 8_190;

/// site16(), whose handle is 0, and answers to a handle.
pub fn answers(handle: u32) -> Vec<u8> {
    let mut job = encode(0, &[(1, 16)]);
    job.extend(record(handle, 7).repeat(RECORDS));
    job
}

fn record(handle: u32, value: i32) -> Vec<u8> {
    [handle.to_le_bytes(), value.to_le_bytes()].concat()
}

fn encode(definitions: u16, rows: &[(u8, u32)]) -> Vec<u8> {
    let mut bytes = Vec::from(definitions.to_le_bytes());
    bytes.extend((rows.len() as u16).to_le_bytes());
    bytes.extend(rows.iter().map(|&(kind, _)| kind));
    bytes.extend(rows.iter().flat_map(|&(_, operand)| operand.to_le_bytes()));
    bytes
}

/// A job of more than 100,000 steps, in which every call keeps a frame, so that it runs alike before and after calls that keep none.
/// F0() = signal(), Fk() = F(k-1)() >x> F(k-1)() >y> signal(); the goal calls the last of them, so many times side by side, beside `open`
/// outside calls, which stay open. `unused` definitions of 90 nodes each are never called.
pub fn long(loops: usize, open: usize, unused: usize) -> Vec<u8> {
    // a call of Fk takes 10 * 2^k - 7 steps
    let levels = 15 - loops.ilog2();
    let mut rows = vec![(6, 0), (1, 3)];
    for k in 1..levels {
        rows.extend([(6, 0), (4, 0), (2, k - 1), (4, 0), (2, k - 1), (1, 3)]);
    }
    for _ in 0..unused {
        rows.push((6, 0));
        rows.extend([(5, 0), (0, 0)].repeat(22));
        rows.push((0, 0));
    }
    let mut leaves = vec![(1, 16); open];
    leaves.extend(vec![(2, levels - 1); loops]);
    forks(&mut rows, &leaves);
    encode(levels as u16 + unused as u16, &rows)
}

/// A tree of forks over these calls.
fn forks(rows: &mut Vec<(u8, u32)>, leaves: &[(u8, u32)]) {
    if let [leaf] = leaves {
        rows.push(*leaf);
        return;
    }
    let (left, right) = leaves.split_at(leaves.len() / 2);
    rows.push((3, 0));
    forks(rows, left);
    forks(rows, right);
}

/// E(n) = ift(n) >x> add(n, -1) >m> E(m), goal E(rounds): its call keeps no frame, so that it runs in two places. Five steps a round,
/// and two.
pub fn countdown(rounds: u32) -> Vec<u8> {
    let mut rows = vec![(6, 1), (4, 0), (1, 1 | 1 << 16), (7, 0), (4, 0)];
    rows.extend([(1, 4 | 2 << 16), (7, 0), (8, -1_i32 as u32), (2, 1 << 16), (7, 2)]);
    rows.extend([(2, 1 << 16), (8, rounds)]);
    encode(1, &rows)
}

/// `jobs/metronome.job` with so many ticks: ten steps, two records and two lines each, in three places.
pub fn metronome(ticks: u32) -> Vec<u8> {
    const WEEK: u32 = 604_800;
    let mut rows = vec![(6, 0), (3, 0), (1, 3), (4, 0), (1, 7 | 1 << 16), (8, WEEK), (2, 0)];
    rows.extend([(4, 0), (2, 0), (1, 18 | 2 << 16), (8, 71), (8, 40)]);
    let mut job = encode(1, &rows);
    for tick in 0..ticks {
        job.extend(record(u32::MAX, (tick * WEEK) as i32));
        job.extend(record(tick, 40));
    }
    job
}

/// Thirty-two definitions, each a prune over a sequence and a fork, and a goal that calls the first: 447 entries.
pub fn joins() -> Vec<u8> {
    let mut rows = Vec::new();
    for _ in 0..32 {
        rows.extend([(6, 1), (5, 0), (4, 0), (1, 16 | 1 << 16), (7, 0), (1, 4 | 2 << 16)]);
        rows.extend([(7, 1), (7, 2), (3, 0), (1, 17), (0, 0)]);
    }
    goal_of_calls(&mut rows, 32, &[(8, 5)]);
    encode(32, &rows)
}

/// A definition of four parameters and calls of it, as many as a table holds: 509 entries.
pub fn calls() -> Vec<u8> {
    let mut rows = vec![(6, 4), (1, 16 | 4 << 16), (7, 0), (7, 1), (7, 2), (7, 3)];
    goal_of_calls(&mut rows, 84, &[(8, 1), (8, 2), (8, 3), (8, 4)]);
    encode(1, &rows)
}

/// A tree of forks over so many calls of the first definition with these parameters.
fn goal_of_calls(rows: &mut Vec<(u8, u32)>, count: usize, parameters: &[(u8, u32)]) {
    if count == 1 {
        rows.push((2, (parameters.len() as u32) << 16));
        rows.extend(parameters);
        return;
    }
    rows.push((3, 0));
    goal_of_calls(rows, count / 2, parameters);
    goal_of_calls(rows, count - count / 2, parameters);
}
