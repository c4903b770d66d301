//! The proved library's functions. A slice crosses as its pointer and its length, an array as its pointer.

use std::ffi::c_void;
use twin::table::{Dag, WORDS};

/// The words of a record.
pub const RECORD: usize = 1863;

mod linked {
    use super::c_void;

    extern "C" {
        pub fn bench_calls(
            table: *const c_void,
            table_length: usize,
            handles: *const c_void,
            handles_length: usize,
            most: u32,
            rounds: u32,
        ) -> u32;
        pub fn bench_load(table: *const c_void, table_length: usize, dag: *mut c_void) -> usize;
        pub fn bench_start(
            table: *const c_void,
            table_length: usize,
            dag: *mut c_void,
            words: *mut c_void,
        ) -> usize;
        pub fn bench_orcrun(
            input: *const c_void,
            input_length: usize,
            dag: *mut c_void,
            output: *mut c_void,
            output_length: usize,
        ) -> usize;
    }
}

/// Loads a table, then so many times the start and so many public calls at most: the step at place 0 or, with the queue empty,
/// an answer to the next handle. The number of calls of the last time.
pub fn calls(table: &[u8], handles: &[u32], most: u32, rounds: u32) -> u32 {
    // Safety: the function reads two slices, and writes to neither.
    unsafe {
        linked::bench_calls(
            table.as_ptr().cast(),
            table.len(),
            handles.as_ptr().cast(),
            handles.len(),
            most,
            rounds,
        )
    }
}

/// What a run works on: the dag's words and the record's.
pub struct Room {
    pub dag: Box<Dag>,
    pub words: Box<[u32; RECORD]>,
}

impl Room {
    pub fn new() -> Room {
        Room { dag: Box::new([0; WORDS]), words: Box::new([0; RECORD]) }
    }

    /// Loads a table: the number of its nodes, or 0.
    pub fn load(&mut self, table: &[u8]) -> usize {
        // Safety: the function reads one slice and writes the words of a dag.
        unsafe {
            linked::bench_load(table.as_ptr().cast(), table.len(), self.dag.as_mut_ptr().cast())
        }
    }

    /// Loads a table, and starts a house run of it.
    pub fn start(&mut self, table: &[u8]) -> usize {
        // Safety: the function reads one slice and writes the words of a dag and of a record.
        unsafe {
            linked::bench_start(
                table.as_ptr().cast(),
                table.len(),
                self.dag.as_mut_ptr().cast(),
                self.words.as_mut_ptr().cast(),
            )
        }
    }

    /// The whole function from input bytes to output bytes; the number of bytes that it prints.
    pub fn orcrun(&mut self, input: &[u8], output: &mut [u8]) -> usize {
        // Safety: the function reads one slice, writes the words of a dag, and within the other slice.
        unsafe {
            linked::bench_orcrun(
                input.as_ptr().cast(),
                input.len(),
                self.dag.as_mut_ptr().cast(),
                output.as_mut_ptr().cast(),
                output.len(),
            )
        }
    }
}

impl Default for Room {
    fn default() -> Room {
        Room::new()
    }
}
