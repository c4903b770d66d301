//! `orcrun`: from input bytes to output bytes.

use crate::machine::{act, house_advance, house_answer, Reply};
use crate::record::{Machine, Used};
use crate::table::{load, Dag};

/// A record with this handle moves the clock.
const CLOCK: u32 = u32::MAX;

/// The lines printed so far. Bytes that the output has no room for are counted and not stored.
struct Lines<'a> {
    out: &'a mut [u8],
    length: usize,
}

impl Lines<'_> {
    fn byte(&mut self, byte: u8) {
        if let Some(to) = self.out.get_mut(self.length) {
            *to = byte;
        }
        self.length += 1;
    }

    /// A word at once where there is room for all of it.
    fn word(&mut self, word: &[u8]) {
        if let Some(room) = self.out.get_mut(self.length..self.length + word.len()) {
            room.copy_from_slice(word);
            self.length += word.len();
            return;
        }
        for &byte in word {
            self.byte(byte);
        }
    }

    /// Most numbers have one digit or two, which are put without a copy.
    fn number(&mut self, n: u32) {
        if n < 10 {
            return self.byte(b'0' + n as u8);
        }
        if n < 100 {
            self.byte(b'0' + (n / 10) as u8);
            return self.byte(b'0' + (n % 10) as u8);
        }
        let mut digits = [0; 10];
        let mut at = digits.len();
        let mut rest = n;
        loop {
            at -= 1;
            digits[at] = b'0' + (rest % 10) as u8;
            rest /= 10;
            if rest == 0 {
                break;
            }
        }
        self.word(&digits[at..]);
    }

    fn unsigned(&mut self, n: u32) {
        self.byte(b' ');
        self.number(n);
    }

    fn signed(&mut self, v: i32) {
        self.byte(b' ');
        if v < 0 {
            self.byte(b'-');
        }
        self.number(v.unsigned_abs());
    }

    fn end(&mut self) {
        self.byte(b'\n');
    }

    fn put(&mut self, word: &[u8], numbers: &[u32]) {
        self.word(word);
        for &n in numbers {
            self.unsigned(n);
        }
        self.end();
    }

    fn reply(&mut self, reply: Reply) {
        match reply {
            Reply::Done | Reply::Waits => {}
            Reply::Published(value) => {
                self.word(b"publish");
                self.signed(value);
                self.end();
            }
            Reply::Called(handle, site, values, count) => {
                self.word(b"call");
                self.unsigned(handle);
                self.unsigned(site as u32);
                for &value in &values[..count] {
                    self.signed(value);
                }
                self.end();
            }
            Reply::Refused(number) => self.put(b"refused", &[number as u32]),
        }
    }
}

/// The bytes of the table: the first 4 + 5N, or all.
pub fn table_of(input: &[u8]) -> &[u8] {
    match input {
        [_, _, low, high, ..] => {
            let n = u16::from_le_bytes([*low, *high]) as usize;
            &input[..input.len().min(4 + 5 * n)]
        }
        _ => input,
    }
}

/// A whole run, in house order: the number of bytes that it prints. The dag and the record are room that the caller lends; what they
/// hold before does not matter.
pub fn orcrun(input: &[u8], dag: &mut Dag, machine: &mut Machine, out: &mut [u8]) -> usize {
    let mut lines = Lines { out, length: 0 };
    if input.len() > 65_536 {
        lines.put(b"long", &[]);
        return lines.length;
    }
    let table = table_of(input);
    if let Err((number, entry)) = load(table, dag) {
        lines.put(b"table", &[number as u32, entry as u32]);
        return lines.length;
    }
    machine.clear(dag[2] as u16);
    run(machine, dag, &input[table.len()..], &mut lines);
    lines.length
}

fn run(machine: &mut Machine, dag: &Dag, mut answers: &[u8], lines: &mut Lines) {
    let mut used = Used::START;
    let mut steps = 0;
    loop {
        if machine.queue.count > 0 {
            if steps == 100_000 {
                lines.put(b"limit", &[]);
                break;
            }
            // most steps have no line
            let reply = act(machine, dag, 0, &mut used);
            if !matches!(reply, Reply::Done | Reply::Waits) {
                lines.reply(reply);
                if matches!(reply, Reply::Refused(_)) {
                    break;
                }
            }
            steps += 1;
        } else if let Some((record, rest)) = answers.split_first_chunk::<8>() {
            let [a, b, c, d, e, f, g, h] = *record;
            let handle = u32::from_le_bytes([a, b, c, d]);
            let value = u32::from_le_bytes([e, f, g, h]);
            lines.reply(match handle {
                CLOCK => house_advance(machine, value),
                _ => house_answer(machine, used.tokens, handle, value as i32),
            });
            answers = rest;
        } else {
            if !answers.is_empty() {
                lines.put(b"short", &[]);
            }
            break;
        }
    }
    lines.put(b"end", &[steps]);
}
