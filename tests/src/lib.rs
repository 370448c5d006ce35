//! A separate implementation of document 01, and all that compares another one with it. Only the
//! program, src/main.rs, knows the archive.

pub mod case;
pub mod circuit;
pub mod compare;
pub mod examples;
pub mod exhaustive;
pub mod generate;
pub mod kinds;
pub mod masks;
pub mod model;
pub mod properties;
pub mod rng;
pub mod sampled;
pub mod samples;
pub mod tapes;
