//! Plain Rust that gives the answers of the library's calls on records: what the library is measured against. Its calls are not
//! inlined where they are measured, as the library's cannot be. It is written for one edition: `header_1992` for 1992, the others
//! for 1985.

pub mod blocks;
pub mod header;
pub mod header_1992;
pub mod samples;
pub mod totals;
pub mod words;
pub mod write;
