//! What the timing and the counting program share: the clock, the jobs, the proved library's functions, and the twin's runs.

pub mod clock;
pub mod jobs;
pub mod proved;
pub mod twins;
