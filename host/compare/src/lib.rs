//! The proved store with the twin's types, which the comparison and the benchmark share.

pub mod proved;
