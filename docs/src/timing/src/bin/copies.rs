//! `copies`: how many copies of the record a public call of the example makes. A record has 6,248 bytes, 5,632 of them in its
//! tokens; every copy of at least 63 tokens is counted. This program has a `memcpy` and a `memmove` of its own, which count.

use std::arch::asm;
use std::sync::atomic::{AtomicUsize, Ordering::Relaxed};
use timing::{jobs, proved, twins};
use twin::lines::table_of;

const LARGE: usize = 63 * 88;

static COPIES: AtomicUsize = AtomicUsize::new(0);
static BYTES: AtomicUsize = AtomicUsize::new(0);

fn count(n: usize) {
    if n >= LARGE {
        COPIES.fetch_add(1, Relaxed);
        BYTES.fetch_add(n, Relaxed);
    }
}

/// # Safety
/// As C's.
#[no_mangle]
pub unsafe extern "C" fn memcpy(to: *mut u8, from: *const u8, n: usize) -> *mut u8 {
    count(n);
    asm!("rep movsb", inout("rdi") to => _, inout("rsi") from => _, inout("rcx") n => _);
    to
}

/// # Safety
/// As C's.
#[no_mangle]
pub unsafe extern "C" fn memmove(to: *mut u8, from: *const u8, n: usize) -> *mut u8 {
    if (to as usize).wrapping_sub(from as usize) >= n {
        return memcpy(to, from, n);
    }
    count(n);
    let (last_to, last_from) =
        (to.wrapping_add(n).wrapping_sub(1), from.wrapping_add(n).wrapping_sub(1));
    asm!("std", "rep movsb", "cld", inout("rdi") last_to => _, inout("rsi") last_from => _, inout("rcx") n => _);
    to
}

fn made<T>(run: impl FnOnce() -> T) -> (usize, usize) {
    let before = (COPIES.load(Relaxed), BYTES.load(Relaxed));
    run();
    (COPIES.load(Relaxed) - before.0, BYTES.load(Relaxed) - before.1)
}

fn main() {
    let job = jobs::example();
    let table = table_of(&job);
    let handles = [1, 0];
    let calls = 11;
    let prefixes: Vec<(usize, usize)> =
        (0..=calls).map(|most| made(|| proved::calls(table, &handles, most, 1))).collect();
    println!("copies of the record by the public calls of the example, proved library");
    let dag = twins::loaded(&job);
    let mut steps = (0, 0, 0);
    for (k, two) in prefixes.windows(2).enumerate() {
        let (copies, bytes) = (two[1].0 - two[0].0, two[1].1 - two[0].1);
        if twins::is_answer(&dag, &handles, k) {
            println!("answer: {copies} copies, {bytes} bytes");
        } else {
            println!("step:   {copies} copies, {bytes} bytes");
            steps = (steps.0 + 1, steps.1 + copies, steps.2 + bytes);
        }
    }
    let mean = |sum: usize| sum as f64 / steps.0 as f64;
    println!("mean of {} steps: {:.1} copies, {:.0} bytes", steps.0, mean(steps.1), mean(steps.2));
    whole(&job);
}

fn whole(job: &[u8]) {
    let mut output = vec![0; 1 << 16];
    let mut room = proved::Room::new();
    let (copies, bytes) = made(|| room.orcrun(job, &mut output));
    println!("whole run of the example, 9 steps and 2 answers: {copies} copies, {bytes} bytes");
}
