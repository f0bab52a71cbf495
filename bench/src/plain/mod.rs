//! Document 01 and Changes 1 and 2 of document 02 in plain Rust, written from the documents alone.

pub mod check;
pub mod close;
pub mod explore;
pub mod fault;
pub mod programs;
pub mod read;
pub mod run;
pub mod table;
pub mod write;
