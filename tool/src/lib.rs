//! The command `selector`: see docs/TEXT.md. It adds no rule: every decision is a call of the library.

pub mod args;
pub mod calendar;
pub mod command;
pub mod diff;
pub mod failure;
pub mod files;
pub mod find;
pub mod follow;
pub mod form;
pub mod json;
pub mod lists;
mod near;
pub mod number;
pub mod path;
pub mod plan_text;
pub mod read;
pub mod terminal;
pub mod text;
pub mod told;
mod wrap;
pub mod write;
