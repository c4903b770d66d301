//! A second print runner for Orc, written from the paper alone, to compare with.
//!
//! `table` reads a job table, `dag` builds the nodes, `record` and `rules` hold the machine's
//! record and its index rules, `machine` runs it, `lines` is orcrun. `edges` has inputs with names,
//! `syntax`, `random` and `generator` make others by chance, `cases` keeps all of them in one file;
//! `coverage` and `report` tell what they reach. `words` and `layout` have dags and records as
//! words, `memory` as bytes, with the calls on them; `trials` is a list of lawful and broken ones,
//! `outcome` what the calls on them print. `loading` is a list of tables, and what `load` says of
//! each. `command` is what the programs have in common.

pub mod cases;
pub mod command;
pub mod coverage;
pub mod dag;
pub mod edges;
pub mod generator;
pub mod layout;
pub mod lines;
pub mod loading;
pub mod machine;
pub mod memory;
pub mod outcome;
pub mod random;
pub mod record;
pub mod report;
pub mod rules;
pub mod sites;
pub mod syntax;
pub mod table;
pub mod trials;
pub mod words;
