//! The library, called as C calls it, compared with the independent second program: its answers, and the memory lent to it.

pub mod altered;
pub mod altered_blocks;
pub mod blocks;
pub mod cells;
pub mod index;
pub mod lent;
pub mod records;
pub mod run;
pub mod texts;
