//! The comparison with the original as it runs; built only where the original is available.

mod clock;
pub mod compare;
pub mod coverage;
pub mod fault;
pub mod hours;
mod left;
mod plan;
mod rng;
mod rules;
mod run;
pub mod samples;
mod sender;
mod stack;
mod tally;
mod words;
