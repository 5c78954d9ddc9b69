//! The marker in plain Rust: the same rules, formats and limits, the same kinds of book, written independently of the
//! crates that are proved. It is what they are compared with, and measured against.

pub mod book;
pub mod check;
pub mod interpretation;
pub mod journal;
pub mod lawful;
pub mod lists;
pub mod marking;
pub mod order;
pub mod records;
pub mod refusal;
pub mod refute;
pub mod repeat;
pub mod sealed;
pub mod show;
pub mod slot_table;
pub mod tableau;
