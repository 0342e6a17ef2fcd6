//! The independent second program: RSC-11-10 and RSC-11-11 records and the index of seconds, one module per part of FORMAT
//! (docs/FORMAT.md). It was written from the customer's papers, not from the Rattle code, and keeps their words: a book is an
//! index; put, take out and ask are insert, remove and query. Of the library's own choices it carries one: a header has 48 values,
//! the last two of which are no field of 1985.
#![forbid(unsafe_code)]

pub mod bits;
pub mod blocks;
pub mod book;
pub mod edition;
pub mod gen;
pub mod header;
pub mod lister;
pub mod monitor;
pub mod record;
pub mod reel;
pub mod samples;
