//! Inputs made by chance from a seed, steered so that every line that can occur does occur.
//!
//! A valid case is a program with answers and clock moves to it: they are found by running the
//! program, so that most of them meet an open handle or a due time. A damaged case is a valid one
//! with one or two faults.

use crate::dag;
use crate::lines::{CLOCK, MOST_STEPS};
use crate::machine::{Machine, Reply};
use crate::random::Random;
use crate::record::{Record, LAST_TIME};
use crate::sites::BUILT_IN_COUNTS;
use crate::syntax::{append_record, encode, fork, give, prune, rwait, sequence};
use crate::syntax::{Expr, Param, Program, Row};
use crate::table::{self, MOST_DEFINITIONS, MOST_DEPTH, MOST_ENTRIES, MOST_IN_SCOPE};

pub fn cases(seed: u64, count: usize) -> Vec<Vec<u8>> {
    let mut random = Random::new(seed);
    (0..count).map(|_| any_case(&mut random)).collect()
}

pub fn any_case(random: &mut Random) -> Vec<u8> {
    match random.below(100) {
        0..=68 => valid_case(random),
        69..=94 => damaged_case(random),
        95..=96 => clash_case(random),
        _ => random_bytes(random),
    }
}

/// Tables without answers, most of them small and none large.
pub fn tables(seed: u64, count: usize) -> Vec<Vec<u8>> {
    let mut random = Random::new(seed);
    (0..count).map(|_| small_table(&mut random)).collect()
}

fn small_table(random: &mut Random) -> Vec<u8> {
    loop {
        let table = match random.below(100) {
            0..=44 => program(random).bytes(),
            45..=89 => damaged_table(random),
            90..=94 => clash_case(random),
            _ => random_bytes(random),
        };
        // 20 entries, or 60.
        if table.len() <= 104 || table.len() <= 304 && random.percent(20) {
            return table;
        }
    }
}

// Valid cases.

/// Most runs are shorter than this: one of 100,000 steps takes as long as hundreds of others.
const MANY_STEPS: u32 = 3000;

fn valid_case(random: &mut Random) -> Vec<u8> {
    let most = if random.percent(6) { MOST_STEPS } else { MANY_STEPS };
    loop {
        let mut bytes = program(random).bytes();
        if append_deliveries(random, &mut bytes, most) < most || most == MOST_STEPS {
            append_piece(random, &mut bytes);
            return bytes;
        }
    }
}

/// Most tables have no more entries than this, so that thousands of inputs can be stored.
const MANY_ENTRIES: usize = 60;

/// A program whose table is accepted.
pub fn program(random: &mut Random) -> Program {
    loop {
        let program = Writer::new(random).program();
        let entries = program.rows().len();
        if entries <= MANY_ENTRIES || entries <= MOST_ENTRIES && random.percent(10) {
            return program;
        }
    }
}

/// Writes one program. `callable` are the definitions that the body at work may call.
struct Writer<'a> {
    random: &'a mut Random,
    formals: Vec<u32>,
    callable: usize,
}

impl Writer<'_> {
    fn new(random: &mut Random) -> Writer<'_> {
        let count = match random.below(40) {
            0..=9 => 0,
            10..=24 => 1,
            25..=38 => random.between(2, 4),
            _ => random.between(5, MOST_DEFINITIONS),
        };
        let formals = (0..count).map(|_| random.below(5) as u32).collect();
        Writer { random, formals, callable: 0 }
    }

    /// Without recursion a body calls only definitions before its own.
    fn program(&mut self) -> Program {
        let total = self.formals.len();
        let recursive = self.random.percent(60);
        let budget = self.budget() / (1 + total / 8);
        let mut definitions = Vec::new();
        for own in 0..total {
            self.callable = if recursive { total } else { own };
            definitions.push((self.formals[own], self.body(own, budget)));
        }
        self.callable = total;
        let goal = self.goal(budget);
        Program { definitions, goal }
    }

    fn budget(&mut self) -> usize {
        match self.random.below(10) {
            0 => self.random.between(1, 4),
            1..=7 => self.random.between(4, 10),
            _ => self.random.between(10, 30),
        }
    }

    fn goal(&mut self, budget: usize) -> Expr {
        match self.random.below(24) {
            0 => self.spine(1, 0),
            1..=2 => self.cells(1, 0, budget),
            3..=12 if self.callable > 0 => self.last_act(1, 0, budget.min(6)),
            _ => self.expr(1, 0, budget),
        }
    }

    fn body(&mut self, own: usize, budget: usize) -> Expr {
        let formals = self.formals[own];
        match self.random.below(10) {
            0..=2 if formals > 0 => self.countdown(own, budget),
            3 => self.nested_where(own),
            4..=7 if self.callable > 0 => self.last_act(1, formals, budget.min(10)),
            _ => self.expr(1, formals, budget),
        }
    }

    fn expr(&mut self, depth: usize, scope: u32, budget: usize) -> Expr {
        if budget <= 1 || depth >= MOST_DEPTH {
            return self.leaf(scope);
        }
        let f = self.random.between(1, budget);
        let (f, g) = (f.min(budget - 1), (budget - f).max(1));
        let may_bind = (scope as usize) < MOST_IN_SCOPE;
        match self.random.below(21) {
            0..=4 => fork(self.expr(depth + 1, scope, f), self.expr(depth + 1, scope, g)),
            5..=10 if may_bind => {
                sequence(self.expr(depth + 1, scope, f), self.expr(depth + 1, scope + 1, g))
            }
            11..=16 if may_bind => {
                prune(self.expr(depth + 1, scope + 1, f), self.expr(depth + 1, scope, g))
            }
            17 if may_bind => self.race(depth, scope),
            18 if may_bind => self.pass_unset(depth, scope, g),
            19 => self.alarms(depth, scope),
            _ => self.leaf(scope),
        }
    }

    fn leaf(&mut self, scope: u32) -> Expr {
        match self.random.below(22) {
            0 => Expr::Stop,
            1..=7 => self.built_in(scope),
            20..=21 => self.alarm(scope),
            8..=14 => self.outside(scope),
            _ if self.callable > 0 => self.call(scope),
            _ => self.built_in(scope),
        }
    }

    fn built_in(&mut self, scope: u32) -> Expr {
        let site = *self.random.pick(&[0, 0, 0, 0, 1, 2, 3, 4, 4, 5, 6]);
        Expr::Site(site, self.params(scope, BUILT_IN_COUNTS[site as usize]))
    }

    /// A call of rwait, mostly with a time that comes soon.
    fn alarm(&mut self, scope: u32) -> Expr {
        match scope > 0 && self.random.percent(40) {
            true => rwait(self.param(scope)),
            false => rwait(Param::Const(time(self.random))),
        }
    }

    fn outside(&mut self, scope: u32) -> Expr {
        let site = match self.random.below(6) {
            0 => self.random.between(16, 1023),
            1 => 1023,
            _ => self.random.between(16, 20),
        };
        let count = self.random.below(5);
        Expr::Site(site as u16, self.params(scope, count))
    }

    fn call(&mut self, scope: u32) -> Expr {
        let definition = self.random.below(self.callable);
        let count = self.formals[definition] as usize;
        Expr::Call(definition as u16, self.params(scope, count))
    }

    /// A call as the last act: behind a sequence, in a side of a fork, left in a prune. Some only come
    /// near it, with an assign or a choke behind the call.
    fn last_act(&mut self, depth: usize, scope: u32, budget: usize) -> Expr {
        if budget <= 1 || depth + 2 > MOST_DEPTH || scope as usize >= MOST_IN_SCOPE {
            return self.call_on(scope);
        }
        let (depth, less) = (depth + 1, budget.saturating_sub(2));
        match self.random.below(18) {
            0..=4 => sequence(self.pause(scope), self.last_act(depth, scope + 1, less)),
            5..=6 => fork(self.leaf(scope), self.last_act(depth, scope, less)),
            7 => fork(self.last_act(depth, scope, less), self.leaf(scope)),
            8..=9 => prune(self.last_act(depth, scope + 1, less), self.expr(depth, scope, 2)),
            10..=12 => prune(self.used_then_call(depth, scope + 1), self.pause(scope)),
            13 => sequence(self.last_act(depth, scope, less), self.leaf(scope + 1)),
            14 => prune(self.leaf(scope + 1), self.last_act(depth, scope, less)),
            _ => self.call_on(scope),
        }
    }

    /// A site reads the innermost variable; then comes a call, which may pass it on or drop it.
    fn used_then_call(&mut self, depth: usize, scope: u32) -> Expr {
        let used = give(Param::Var(scope - 1));
        match depth < MOST_DEPTH && (scope as usize) < MOST_IN_SCOPE {
            true => sequence(used, self.call_on(scope + 1)),
            false => used,
        }
    }

    /// What a loop does before it goes on: mostly something that waits for a record.
    fn pause(&mut self, scope: u32) -> Expr {
        match self.random.below(10) {
            0..=4 => self.outside(scope),
            5..=8 => self.alarm(scope),
            _ => self.built_in(scope),
        }
    }

    /// A call with any parameters, or with the variables from one on, in turn: as they are, turned,
    /// some of them twice.
    fn call_on(&mut self, scope: u32) -> Expr {
        if scope == 0 || self.random.percent(50) {
            return self.call(scope);
        }
        let definition = self.random.below(self.callable);
        let from = self.random.below(scope as usize) as u32;
        let one = |formal: u32| Param::Var((from + formal) % scope);
        Expr::Call(definition as u16, (0..self.formals[definition]).map(one).collect())
    }

    fn params(&mut self, scope: u32, count: usize) -> Vec<Param> {
        (0..count).map(|_| self.param(scope)).collect()
    }

    fn param(&mut self, scope: u32) -> Param {
        if scope == 0 || self.random.percent(25) {
            return Param::Const(value(self.random));
        }
        // The innermost variable is the one most likely used.
        match self.random.percent(50) {
            true => Param::Var(scope - 1),
            false => Param::Var(self.random.below(scope as usize) as u32),
        }
    }

    /// Two outside calls of which the first to answer wins, or one call and a deadline.
    fn race(&mut self, depth: usize, scope: u32) -> Expr {
        if depth + 2 > MOST_DEPTH {
            return self.leaf(scope);
        }
        let other = match self.random.percent(40) {
            true => self.alarm(scope),
            false => self.outside(scope),
        };
        let calls = fork(self.outside(scope), other);
        prune(self.leaf(scope + 1), calls)
    }

    /// Several calls of rwait side by side: some are due at one time, some not as they called.
    fn alarms(&mut self, depth: usize, scope: u32) -> Expr {
        let count = self.random.between(2, 4).min(MOST_DEPTH - depth + 1);
        let one = self.alarm(scope);
        (1..count).fold(one, |all, _| fork(self.alarm(scope), all))
    }

    /// A definition call gets a variable that stays unset for a while.
    fn pass_unset(&mut self, depth: usize, scope: u32, budget: usize) -> Expr {
        if self.callable == 0 {
            return self.race(depth, scope);
        }
        prune(self.call(scope + 1), self.expr(depth + 1, scope, budget))
    }

    /// F(n, ..): while n is above 0, with m = n - 1, the rest calls F(m, ..).
    fn countdown(&mut self, own: usize, budget: usize) -> Expr {
        let formals = self.formals[own];
        let m = formals + 2;
        let mut params = vec![Param::Var(m)];
        params.extend((1..formals).map(|_| self.param(formals)));
        let again = Expr::Call(own as u16, params);
        let rest = match self.random.below(8) {
            0 => again,
            1 => sequence(again.clone(), again),
            2 => fork(again, self.leaf(m + 1)),
            3 => prune(self.leaf(m + 2), again),
            4 => sequence(self.outside(m + 1), again),
            5 => prune(again, self.leaf(m + 1)),
            6 => sequence(again, self.leaf(m + 2)),
            _ => fork(self.expr(6, m + 1, budget / 2), again),
        };
        let less = Expr::Site(5, vec![Param::Const(0), Param::Var(0)]);
        let ift = Expr::Site(1, vec![Param::Var(formals)]);
        let step = Expr::Site(4, vec![Param::Var(0), Param::Const(-1)]);
        let loops = sequence(less, sequence(ift, sequence(step, rest)));
        match self.random.percent(70) {
            true => fork(loops, self.leaf(formals)),
            false => fork(self.leaf(formals), loops),
        }
    }

    /// W() = f <x< W(): cells run out before tokens do.
    fn nested_where(&mut self, own: usize) -> Expr {
        let formals = self.formals[own];
        let params = self.params(formals, formals as usize);
        let again = Expr::Call(own as u16, params);
        match self.random.percent(50) {
            true => prune(Expr::Stop, again),
            false => prune(self.leaf(formals + 1), again),
        }
    }

    /// A program as deep as depth goes, along one side.
    fn spine(&mut self, depth: usize, scope: u32) -> Expr {
        if depth == MOST_DEPTH {
            return self.leaf(scope);
        }
        let may_bind = (scope as usize) < MOST_IN_SCOPE;
        match self.random.below(6) {
            0 if may_bind => sequence(self.leaf(scope), self.spine(depth + 1, scope + 1)),
            1 if may_bind => prune(self.spine(depth + 1, scope + 1), self.leaf(scope)),
            2 if may_bind => prune(self.leaf(scope + 1), self.spine(depth + 1, scope)),
            3 if may_bind => sequence(self.spine(depth + 1, scope), self.leaf(scope + 1)),
            4 => fork(self.leaf(scope), self.spine(depth + 1, scope)),
            _ => fork(self.spine(depth + 1, scope), self.leaf(scope)),
        }
    }

    /// Many cells side by side: each branch waits for an outside answer of its own.
    fn cells(&mut self, depth: usize, scope: u32, budget: usize) -> Expr {
        if budget <= 2 || depth + 2 > MOST_DEPTH {
            return match depth < MOST_DEPTH {
                true => prune(self.leaf(scope + 1), self.outside(scope)),
                false => self.leaf(scope),
            };
        }
        let half = budget / 2;
        fork(self.cells(depth + 1, scope, half), self.cells(depth + 1, scope, budget - half))
    }
}

fn value(random: &mut Random) -> i32 {
    match random.below(10) {
        0 => *random.pick(&[i32::MAX, i32::MIN, i32::MAX - 1, i32::MIN + 1]),
        1 => random.draw() as i32,
        2..=5 => random.below(2) as i32,
        _ => random.below(8) as i32 - 1,
    }
}

/// Times of rwait: small ones, 0, negative ones, and such that the sum meets the end of the range.
fn time(random: &mut Random) -> i32 {
    match random.below(20) {
        0 => *random.pick(&[i32::MAX, i32::MAX - 1, i32::MAX - 5]),
        1 => *random.pick(&[-1, -1, -7, i32::MIN]),
        2..=3 => 0,
        4 => random.between(6, 1000) as i32,
        _ => random.between(1, 5) as i32,
    }
}

/// Runs the table in house order and appends the answers and clock moves given where the queue was
/// empty. It tells how many steps the run has, at most as many as said.
fn append_deliveries(random: &mut Random, bytes: &mut Vec<u8>, most_steps: u32) -> u32 {
    let table = table::read(bytes).expect("a valid program has an accepted table");
    let dag = dag::build(&table);
    let machine = Machine::new(&dag);
    let mut record = machine.start().expect("a table's dag keeps the rules");
    let most = match random.below(20) {
        0 => 300,
        1..=3 => 0,
        _ => 25,
    };
    let mut steps = 0;
    for _ in 0..random.between(0, most) {
        run_until_empty(&machine, &mut record, &mut steps, most_steps);
        let idle = record.open_handles().is_empty() && record.timers.is_empty();
        // A wrong handle or time is refused and changes nothing; the run goes on.
        if moves_next(random, &record) {
            let time = choose_time(random, &record);
            append_record(bytes, CLOCK, time as i32);
            let _ = machine.advance(&mut record, time);
        } else {
            let handle = choose_handle(random, &record);
            let value = value(random);
            append_record(bytes, handle, value);
            let _ = machine.answer(&mut record, handle, value);
        }
        // Where no call is open and no token due, nothing that follows would change that.
        if idle && random.percent(60) {
            break;
        }
    }
    run_until_empty(&machine, &mut record, &mut steps, most_steps);
    steps
}

/// Whether a clock move comes next, and not an answer.
fn moves_next(random: &mut Random, record: &Record) -> bool {
    match (record.timers.is_empty(), record.open_handles().is_empty()) {
        (true, _) => random.percent(4),
        (false, false) => random.percent(45),
        (false, true) => random.percent(90),
    }
}

/// Mostly the time at which a token is due, or near it; else the present time, one before it, one
/// out of range, or any.
fn choose_time(random: &mut Random, record: &Record) -> u32 {
    let due = record.tokens.iter().filter_map(|token| token.due_time());
    let mut due: Vec<u32> = due.collect();
    due.sort_unstable();
    if !due.is_empty() && random.percent(80) {
        return match random.below(10) {
            0..=3 => due[0],
            4..=6 => *random.pick(&due),
            7 => *random.pick(&due) - 1,
            8 => random.pick(&due).saturating_add(random.below(3) as u32),
            _ => due[due.len() - 1],
        };
    }
    match random.below(12) {
        0..=2 => record.clock,
        3..=4 => record.clock.saturating_sub(random.between(1, 3) as u32),
        5 => *random.pick(&[LAST_TIME + 1, u32::MAX, u32::MAX - 1]),
        6 => record.clock | 1 << 31,
        7 if random.percent(30) => LAST_TIME,
        8 if random.percent(30) => LAST_TIME - random.below(5) as u32,
        9 => random.draw() as u32 >> random.between(8, 28),
        _ => record.clock.saturating_add(random.between(1, 5) as u32),
    }
}

fn run_until_empty(machine: &Machine, record: &mut Record, steps: &mut u32, most: u32) {
    while !record.queue.is_empty() && *steps < most {
        let reply: Result<Reply, _> = machine.step(record, 0);
        if reply.is_err() {
            return;
        }
        *steps += 1;
    }
}

/// Mostly an open handle, in any order; else one that is not open, or may not be.
fn choose_handle(random: &mut Random, record: &Record) -> u32 {
    let open = record.open_handles();
    if !open.is_empty() && random.percent(85) {
        return *random.pick(&open);
    }
    // An open handle with a high bit added must not pass for the handle.
    if !open.is_empty() && random.percent(30) {
        return random.pick(&open) | 1 << random.between(8, 31);
    }
    match random.below(8) {
        0 => record.calls,
        1 => record.calls + random.below(3) as u32,
        2 => random.draw() as u32,
        // Mostly one that was answered, or whose call a choke ended.
        _ => random.below(record.calls as usize + 1) as u32,
    }
}

/// Sometimes a piece that is too short for a record.
fn append_piece(random: &mut Random, bytes: &mut Vec<u8>) {
    if random.percent(15) {
        let length = random.between(1, 7);
        bytes.extend((0..length).map(|_| random.draw() as u8));
    }
}

// Damaged cases.

fn damaged_case(random: &mut Random) -> Vec<u8> {
    let mut bytes = damaged_table(random);
    if random.percent(30) {
        append_record(&mut bytes, 0, value(random));
        append_piece(random, &mut bytes);
    }
    bytes
}

fn damaged_table(random: &mut Random) -> Vec<u8> {
    let program = program(random);
    let mut damaged =
        Damaged { definitions: program.definitions.len() as u16, rows: program.rows() };
    // 1 and 2 have no entry, so they need fewer.
    let targets = [1, 2, 3, 3, 4, 4, 5, 5, 6, 6, 7, 7, 8, 8];
    let mut target = *random.pick(&targets);
    damaged.damage(random, target);
    if random.percent(30) {
        target = *random.pick(&targets);
        damaged.damage(random, target);
    }
    let mut bytes = encode(damaged.definitions, &damaged.rows);
    if target == 1 || random.percent(3) {
        bytes.truncate(random.below(bytes.len()));
    }
    bytes
}

/// An entry at depth 24 or 25, with up to 8 variables in scope, that earns several refusals: the
/// order of the tests decides.
fn clash_case(random: &mut Random) -> Vec<u8> {
    let deep = random.between(MOST_DEPTH - 1, MOST_DEPTH) - 1;
    let binders = *random.pick(&[0, 6, 7, 8, 8, 8]);
    let mut rows: Vec<Row> =
        (0..deep).flat_map(|level| [(if level < binders { 4 } else { 3 }, 0), (0, 0)]).collect();
    rows.push((3, 0));
    let clashes = [
        (0, 0),
        (0, 1),
        (1, 7),
        (1, 8),
        (1, 0x0005_0010),
        (2, 0x0005_0000),
        (2, 0),
        (3, 0),
        (3, 5),
        (4, 0),
        (4, 1),
        (5, 0),
        (5, 2),
        (6, 9),
        (7, 99),
        (9, 9),
    ];
    rows.push(*random.pick(&clashes));
    rows.extend((0..random.below(5)).map(|_| (0, 0)));
    encode(0, &rows)
}

struct Damaged {
    definitions: u16,
    rows: Vec<Row>,
}

impl Damaged {
    /// Aims at one refusal. An earlier entry may turn it into another one.
    fn damage(&mut self, random: &mut Random, target: usize) {
        if self.rows.is_empty() {
            return;
        }
        match target {
            2 => self.damage_sizes(random),
            3 => self.damage_kind(random),
            4 => self.damage_operand(random),
            5 => self.damage_length(random),
            6 => self.insert_spine(random),
            7 => self.damage_variable(random),
            8 => self.damage_call(random),
            // 1 is done on the bytes.
            _ => {}
        }
    }

    fn any(&self, random: &mut Random) -> usize {
        random.below(self.rows.len())
    }

    /// Any row of one of these kinds.
    fn any_of(&self, random: &mut Random, kinds: &[u8]) -> Option<usize> {
        let places: Vec<usize> =
            (0..self.rows.len()).filter(|at| kinds.contains(&self.rows[*at].0)).collect();
        (!places.is_empty()).then(|| *random.pick(&places))
    }

    fn damage_sizes(&mut self, random: &mut Random) {
        match random.below(16) {
            0..=3 => self.rows.clear(),
            // Few, since these are large.
            4 => self.rows.resize(random.between(MOST_ENTRIES + 1, 600), (0, 0)),
            5..=9 => self.definitions = MOST_DEFINITIONS as u16 + 1,
            _ => self.definitions = random.between(MOST_DEFINITIONS + 1, 0xffff) as u16,
        }
    }

    fn damage_kind(&mut self, random: &mut Random) {
        let at = self.any(random);
        self.rows[at].0 = match random.percent(40) {
            true => random.between(9, 255) as u8,
            false => random.below(9) as u8,
        };
    }

    fn damage_operand(&mut self, random: &mut Random) {
        let Some(at) = self.any_of(random, &[0, 1, 2, 3, 4, 5, 6]) else {
            return;
        };
        let (kind, operand) = self.rows[at];
        let (low, high) = (operand & 0xffff, operand >> 16);
        let count =
            |random: &mut Random| *random.pick(&[0, 1, 2, 3, 4, 5, 5, 6, 255, 0xffff]) << 16;
        self.rows[at].1 = match kind {
            1 if random.percent(50) => {
                let sites = [7, 8, 15, 16, 1023, 1024, 0x7fff, 0xffff];
                high << 16 | *random.pick(&sites)
            }
            1 | 2 => low | count(random),
            6 => *random.pick(&[5, 6, 255, 0x0001_0000, 0xffff_ffff]),
            _ => *random.pick(&[1, 2, 255, 0x0001_0000, 0x8000_0000, 0xffff_ffff]),
        };
    }

    fn damage_length(&mut self, random: &mut Random) {
        match random.below(4) {
            0 => self.definitions = (self.definitions + 1).min(MOST_DEFINITIONS as u16),
            1 => {
                let more = random.between(1, 5);
                self.rows.extend((0..more).map(|_| random_row(random)));
            }
            2 => self.rows.truncate(random.between(1, self.rows.len())),
            _ => self.rows.truncate(self.rows.len().max(2) - 1),
        }
    }

    /// Before any expression: so many times `stop |`, which makes it that much deeper.
    fn insert_spine(&mut self, random: &mut Random) {
        let Some(at) = self.any_of(random, &[0, 1, 2, 3, 4, 5]) else {
            return;
        };
        let levels = random.between(21, 24);
        self.insert_pairs(at, 3, levels);
    }

    fn insert_pairs(&mut self, at: usize, kind: u8, count: usize) {
        let pairs = (0..count).flat_map(|_| [(kind, 0), (0, 0)]);
        self.rows.splice(at..at, pairs);
    }

    fn damage_variable(&mut self, random: &mut Random) {
        match self.any_of(random, &[7, 8]) {
            Some(at) if random.percent(60) => {
                self.rows[at] = (7, *random.pick(&[0, 1, 2, 3, 5, 7, 8, 9, 255, 0xffff_ffff]));
            }
            _ => {
                // `stop >x>` puts one more variable in scope each time.
                let Some(at) = self.any_of(random, &[0, 1, 2, 3, 4, 5]) else {
                    return;
                };
                let binders = random.between(4, 10);
                self.insert_pairs(at, 4, binders);
            }
        }
    }

    fn damage_call(&mut self, random: &mut Random) {
        match (self.any_of(random, &[2]), self.any_of(random, &[6])) {
            (Some(at), _) if random.percent(60) => {
                let high = self.rows[at].1 & 0xffff_0000;
                let d = self.definitions as u32;
                let definition = *random.pick(&[0, d.saturating_sub(1), d, d + 1, 32, 0xffff]);
                self.rows[at].1 = high | definition;
            }
            (_, Some(at)) if random.percent(60) => self.rows[at].1 = random.below(5) as u32,
            _ => {
                // A call in place of a stop, or in front of the whole goal.
                let call = (2, random.below(4) as u32);
                match self.any_of(random, &[0]) {
                    Some(at) => self.rows[at] = call,
                    None if self.definitions == 0 => {
                        self.rows.splice(0..0, [(3, 0), call]);
                    }
                    None => {}
                }
            }
        }
    }
}

/// A row that often fits somewhere.
fn random_row(random: &mut Random) -> Row {
    let kind = random.below(9) as u8;
    let operand = match kind {
        1 => {
            let site = random.below(BUILT_IN_COUNTS.len());
            site as u32 | (BUILT_IN_COUNTS[site] as u32) << 16
        }
        2 => random.below(3) as u32 | (random.below(3) as u32) << 16,
        6 | 7 => random.below(5) as u32,
        8 => value(random) as u32,
        _ => 0,
    };
    (kind, operand)
}

/// Bytes by chance, with or without a header that fits.
fn random_bytes(random: &mut Random) -> Vec<u8> {
    let length = random.below(80);
    match random.below(3) {
        0 => (0..length).map(|_| random.draw() as u8).collect(),
        1 => {
            let rows: Vec<Row> = (0..=length).map(|_| random_row(random)).collect();
            encode(random.below(3) as u16, &rows)
        }
        _ => {
            let rows: Vec<Row> =
                (0..=length).map(|_| (random.below(10) as u8, random.draw() as u32)).collect();
            encode(random.below(34) as u16, &rows)
        }
    }
}
