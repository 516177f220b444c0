//! Trials of the library against the interpreter in ../baseline, and what both are measured by.

pub mod by_hand;
pub mod damage;
pub mod describe;
pub mod draft;
pub mod gets;
pub mod jobs;
pub mod pairs;
