//! `timing [REPEATS]`: times the proved library and its twin in turn, and prints medians and ratios.

use std::hint::black_box;
use timing::clock::processor_time;
use timing::proved::Room;
use timing::{jobs, proved, twins};
use twin::lines::{orcrun, table_of};
use twin::record::Machine;
use twin::table::{load, Dag, Refused};

/// What is timed: the proved library, the twin.
const SIDES: usize = 2;

/// The times of each side.
type Found = [Vec<f64>; SIDES];

fn main() {
    let repeats =
        std::env::args().nth(1).map_or(11, |word| word.parse().expect("a number of repeats"));
    whole_example(repeats);
    loading(repeats);
    refused(repeats);
    public_step(repeats);
    growth(repeats);
    loops(repeats);
}

fn nanoseconds(rounds: u32, mut call: impl FnMut()) -> f64 {
    let before = processor_time();
    for _ in 0..rounds {
        call();
    }
    (processor_time() - before) as f64 / rounds as f64
}

fn add(found: &mut Found, times: [f64; SIDES]) {
    for (of_side, time) in found.iter_mut().zip(times) {
        of_side.push(time);
    }
}

fn medians(found: Found) -> [f64; SIDES] {
    found.map(|mut times| {
        times.sort_by(f64::total_cmp);
        times[times.len() / 2]
    })
}

/// Times both sides in turn: medians over the repeats. Each repeat has its stack elsewhere within a page, since a run's time depends on
/// where its stack lies beside its room.
fn in_turn(repeats: usize, mut times: impl FnMut() -> [f64; SIDES]) -> [f64; SIDES] {
    let mut found = [const { Vec::new() }; SIDES];
    for repeat in 0..repeats {
        add(&mut found, deeper(repeat * PAGE / repeats, &mut times));
    }
    medians(found)
}

const PAGE: usize = 4096;

/// Calls with so many bytes more on the stack, about.
fn deeper(bytes: usize, times: &mut dyn FnMut() -> [f64; SIDES]) -> [f64; SIDES] {
    let filled = [0u8; 64];
    black_box(&filled);
    if bytes < filled.len() {
        return times();
    }
    let found = deeper(bytes - filled.len(), times);
    black_box(&filled);
    found
}

fn head(title: &str) {
    println!("{title:<60} {:>8} {:>8} {:>6}", "proved", "twin", "ratio");
}

fn row(name: &str, times: [f64; SIDES]) {
    shown(name, times, times);
}

/// Steps a second, in thousands.
fn speed(name: &str, times: [f64; SIDES], steps: u32) {
    shown(name, times.map(|time| 1e6 * steps as f64 / time), times);
}

/// A figure of each side, a small one with decimals; the ratio is that of the times.
fn shown(name: &str, figures: [f64; SIDES], [time, of_twin]: [f64; SIDES]) {
    let [proved, twin] =
        figures.map(
            |figure| if figure < 100.0 { format!("{figure:.2}") } else { format!("{figure:.0}") },
        );
    println!("{name:<60} {proved:>8} {twin:>8} {:>6.2}", time / of_twin);
}

/// Times so many runs of a job in a row. Both sides print the same.
fn whole(repeats: usize, rounds: u32, job: &[u8]) -> [f64; SIDES] {
    let (mut output, mut lines) = (vec![0; 1 << 17], vec![0; 1 << 17]);
    let (mut room, mut machine) = (Room::new(), Box::new(Machine::BLANK));
    let mut dag = twins::loaded(job);
    let length = room.orcrun(job, &mut output);
    // called as a library's function is, and not made part of the loop
    let run: fn(&[u8], &mut Dag, &mut Machine, &mut [u8]) -> usize = black_box(orcrun);
    assert_eq!(run(job, &mut dag, &mut machine, &mut lines), length);
    assert_eq!(output[..length], lines[..length]);
    in_turn(repeats, || {
        let proved = nanoseconds(rounds, || {
            black_box(room.orcrun(black_box(job), &mut output));
        });
        let twin = nanoseconds(rounds, || {
            black_box(run(black_box(job), &mut dag, &mut machine, &mut lines));
        });
        [proved, twin]
    })
}

/// Times the load of a job's table, and the start after it where one is asked for.
fn front(repeats: usize, rounds: u32, job: &[u8], started: bool) -> [f64; SIDES] {
    let table = table_of(job);
    let (mut room, mut machine) = (Room::new(), Box::new(Machine::BLANK));
    let mut dag = twins::loaded(job);
    assert_eq!(room.load(table), dag[0] as usize);
    assert_eq!(room.dag[..], dag[..]);
    let load: fn(&[u8], &mut Dag) -> Result<usize, Refused> = black_box(load);
    in_turn(repeats, || {
        let proved = nanoseconds(rounds, || {
            let table = black_box(table);
            black_box(if started { room.start(table) } else { room.load(table) });
        });
        let twin = nanoseconds(rounds, || {
            let nodes = load(black_box(table), &mut dag);
            if started {
                machine.clear(dag[2] as u16);
                black_box(&machine);
            }
            let _ = black_box(nodes);
        });
        [proved, twin]
    })
}

fn whole_example(repeats: usize) {
    head("10,000 runs of the example, input bytes to lines, ns a run");
    let job = jobs::example();
    let run = whole(repeats, 10_000, &job);
    let started = front(repeats, 10_000, &job, true);
    row("load, start, 9 steps, 2 answers, 5 lines", run);
    row("load and start", started);
    row(
        "house steps, answers and lines alone: the difference",
        [0, 1].map(|k| run[k] - started[k]),
    );
    println!();
}

fn loading(repeats: usize) {
    head("table to dag, ns an entry");
    let tables = [
        ("small: the example", jobs::example()),
        ("large: 32 definitions with sequences, forks, prunes", jobs::joins()),
        ("large: 9 of 90 nodes each, a chain of prunes", jobs::long(1, 0, 9)),
        ("calls of four parameters", jobs::calls()),
    ];
    for (name, job) in &tables {
        let entries = u16::from_le_bytes([job[2], job[3]]);
        let times = front(repeats, 2_000, job, false).map(|time| time / entries as f64);
        row(&format!("{name}: {entries} entries"), times);
    }
    println!();
}

fn refused(repeats: usize) {
    head("refused answers, input bytes to lines, ns a record");
    let names = [
        "8,190 records of a handle that no call was given",
        "8,190 records of one handle, all but the first late",
    ];
    for (name, handle) in names.iter().zip([1, 0]) {
        let times = whole(repeats, 20, &jobs::answers(handle));
        row(name, times.map(|time| time / jobs::RECORDS as f64));
    }
    println!();
}

/// Times the start and so many public calls.
fn prefix(rounds: u32, job: &[u8], dag: &Dag, handles: &[u32], most: u32) -> [f64; SIDES] {
    let table = table_of(job);
    let mut machine = Box::new(Machine::BLANK);
    let proved = nanoseconds(1, || {
        black_box(proved::calls(black_box(table), handles, most, rounds));
    });
    let twin = nanoseconds(rounds, || {
        black_box(twins::calls(&mut machine, black_box(dag), handles, most));
    });
    [proved / rounds as f64, twin]
}

/// The nine steps of the example, by the difference between runs that are one call longer.
fn public_step(repeats: usize) {
    head("public calls of the example, index rules tested, ns");
    let job = jobs::example();
    let dag = twins::loaded(&job);
    let handles = [1, 0];
    let calls = 9 + handles.len();
    assert_eq!(proved::calls(table_of(&job), &handles, 99, 1), calls as u32);
    assert_eq!(twins::calls(&mut Machine::BLANK.clone(), &dag, &handles, 99), calls as u32);
    let (answers, steps): (Vec<usize>, Vec<usize>) =
        (0..calls).partition(|&k| twins::is_answer(&dag, &handles, k));
    let mut found = [const { [const { Vec::new() }; SIDES] }; 2];
    // many short turns, since each figure is a difference of two
    for _ in 0..10 * repeats {
        let times: Vec<[f64; SIDES]> =
            (0..=calls).map(|most| prefix(100, &job, &dag, &handles, most as u32)).collect();
        let mean = |which: &[usize], side: usize| {
            which.iter().map(|&k| times[k + 1][side] - times[k][side]).sum::<f64>()
                / which.len() as f64
        };
        add(&mut found[0], [0, 1].map(|side| mean(&steps, side)));
        add(&mut found[1], [0, 1].map(|side| mean(&answers, side)));
    }
    let names = ["a step: mean of 9", "an answer: mean of 2, one refused"];
    for (name, found) in names.iter().zip(found) {
        row(name, medians(found));
    }
    println!();
}

/// Loops side by side, open calls, and definitions that nobody calls.
const GROWING: [(usize, usize, usize); 11] = [
    (1, 0, 0),
    (1, 14, 0),
    (1, 28, 0),
    (1, 42, 0),
    (1, 0, 3),
    (1, 0, 6),
    (1, 0, 9),
    (1, 42, 4),
    (2, 0, 0),
    (4, 0, 0),
    (4, 8, 4),
];

fn growth(repeats: usize) {
    const STEPS: u32 = 2_000;
    let repeats = repeats.min(9);
    let jobs = GROWING.map(|(loops, open, unused)| {
        let job = jobs::long(loops, open, unused);
        let dag = twins::loaded(&job);
        let (used, ready) = twins::tokens_in_use(&dag, STEPS as usize);
        (format!("{used:.0} tokens in use, {ready:.0} ready, {} nodes", dag[0]), job)
    });
    println!("steps a second, in thousands");
    head("public step, index rules tested");
    for (name, job) in &jobs {
        let dag = twins::loaded(job);
        let times = in_turn(repeats, || {
            let base = prefix(3, job, &dag, &[], 0);
            let all = prefix(3, job, &dag, &[], STEPS);
            [0, 1].map(|side| all[side] - base[side])
        });
        speed(name, times, STEPS);
    }
    head("house run of 100,000 steps, index rules not tested again");
    for (name, job) in &jobs {
        speed(name, whole(repeats, 1, job), 100_000);
    }
}

/// Loops whose call of themselves is their last act: a step takes no longer after many rounds than after few.
fn loops(repeats: usize) {
    println!();
    println!("a loop that keeps no frame, steps a second, in thousands");
    head("public step, index rules tested");
    let job = jobs::countdown(19_999);
    let dag = twins::loaded(&job);
    for steps in [200, 2_000, 20_000] {
        let times = in_turn(repeats, || {
            let base = prefix(3, &job, &dag, &[], 0);
            let all = prefix(3, &job, &dag, &[], steps);
            [0, 1].map(|side| all[side] - base[side])
        });
        speed(&format!("{steps} steps"), times, steps);
    }
    head("house run, index rules not tested again");
    for rounds in [20, 200, 2_000, 19_999] {
        let steps = 5 * rounds + 2;
        let times = whole(repeats, 100_000 / steps, &jobs::countdown(rounds));
        speed(&format!("{steps} steps, {rounds} rounds"), times, steps);
    }
    println!();
    head("a metronome, house run with its records and lines, ns a tick");
    for ticks in [10, 100, 1_000, 3_551] {
        let times = whole(repeats, 10_000 / ticks, &jobs::metronome(ticks));
        row(&format!("{ticks} ticks"), times.map(|time| time / ticks as f64));
    }
}
