//! The independent simulator of the adaptive bubble router bench, and what is
//! needed to compare other implementations with it.
//!
//! - `model`: the simulator, in objects (nodes, queues, packets), written from
//!   the customer's document (docs/RULES.md has its rules) and section 2 of
//!   the paper alone;
//! - `plain`: a fast implementation on the words, the baseline of the benchmark;
//! - `ffi`: the C library under test, if it is linked;
//! - `bench`: the calls as one trait, for all of them, and those of the waveform
//!   as two more;
//! - `lab`: makes one call on all of them and compares every answer and word;
//! - `equations`: what demand 3 says of a run of moves;
//! - `generate`, `damage` and `random`: networks, faults and arguments to try;
//! - `sheet`: the bench program, bytes in and bytes out, on top of `model`.

pub mod bench;
pub mod damage;
pub mod equations;
#[cfg(bench_lib)]
pub mod ffi;
pub mod generate;
pub mod lab;
pub mod model;
pub mod plain;
pub mod random;
pub mod sheet;
