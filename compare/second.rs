//! The rules of the bench a second time, plainly and on their own: true long division over lists of bits, and
//! histories kept whole. Slow on purpose: what it answers is held against what the library answers.
//!
//! The programs beside it (cases, sheet, mark, vectors) take it in as a module: `rustc --edition 2021 -O cases.rs`.

pub mod answers;
pub mod bits;
pub mod blocks;
pub mod clock;
pub mod encoder;
pub mod frequencies;
pub mod groups;
pub mod keys;
pub mod listen;
pub mod marker;
pub mod program;
pub mod receiver;
pub mod station;
