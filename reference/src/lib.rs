//! Hegdorvin's second program.
//!
//! The rules of document 01 and of the requests of document 02 that have landed, written down once
//! more and from the paper alone, so that the product's answers can be held against answers that
//! nobody copied from it. Where the two programs differ, the documents decide.
//!
//! Each operation takes any bytes at all and answers `Ok` with what its document names, or `Err`
//! with one of the refusals.

pub mod build;
pub mod check;
pub mod compare;
pub mod cost;
pub mod files;
pub mod find;
pub mod generate;
pub mod judge;
pub mod kiss2;
pub mod line;
pub mod machine;
pub mod needed;
pub mod pack;
pub mod refusal;
pub mod run;
pub mod sizes;
pub mod worked;
