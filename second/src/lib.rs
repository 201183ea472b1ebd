//! The second program: the line's logic in plain Rust, written from the documents, to check and to time the proved code beside it.

pub mod account;
pub mod capture;
pub mod hunt;
pub mod kept;
pub mod lanes;
pub mod receive;
pub mod run;
pub mod send;
pub mod symbols;
pub mod tables;
pub mod traffic;
pub mod word;
pub mod xorshift;
