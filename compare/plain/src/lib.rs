//! The rules of documents 01 and 02 (L1 to L7) in plain Rust: reading layouts, building, checking and running plans,
//! and the record due to a build. It shares nothing with the proved library: `trial` holds the one against the other,
//! and it is what the library's time is measured against.
//!
//! Also here is what makes inputs for both: layouts, tables, records and plans at random, and how they are damaged.

pub mod build;
pub mod call;
pub mod case;
pub mod check;
pub mod due;
pub mod form;
pub mod generate;
pub mod hash;
pub mod hex;
pub mod name;
pub mod nullness;
pub mod number;
pub mod policy;
pub mod random;
mod reader;
pub mod replay;
pub mod rules;
pub mod run;
pub mod selector;
pub mod validate;
pub mod value;
pub mod write;
