//! The product paper, section by section, and the requests made after it. Written to be read beside them; nothing here is fast.
#![forbid(unsafe_code)]

pub mod checks;
pub mod entries;
pub mod faults;
pub mod frames;
pub mod mode;
pub mod printed;
pub mod record;
pub mod registers;
pub mod rules;
pub mod run;
pub mod sets;
pub mod state;
pub mod table;

/// What a call answers: a value, or the number of its refusal.
pub type Answer<T> = Result<T, u32>;
