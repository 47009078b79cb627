//! The commands of the proved program in plain Rust, by the standard library alone: what the work costs where nothing is
//! proved. `bench/run` times both on the same inputs, and compares what they write.
#![forbid(unsafe_code)]

pub mod board;
pub mod calls;
pub mod deck;
pub mod ecb;
pub mod element;
pub mod journal;
pub mod latch;
pub mod machine;
pub mod program;
pub mod report;
pub mod script;
pub mod services;
pub mod spool;
pub mod text;
pub mod word;
