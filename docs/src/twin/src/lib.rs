//! A twin of the proved library in plain Rust, to compare times with: the same table, the same dag words, the same machine, the same
//! lines. It works by `&mut` references, allocates nothing in a run, and proves nothing. What is in use is carried from step to step
//! as bits; it blanks only after a step that can put something out of reach.

pub mod lines;
pub mod machine;
pub mod program;
pub mod record;
pub mod rules;
pub mod table;
