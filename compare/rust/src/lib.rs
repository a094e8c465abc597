//! The original column selector beside the library: see README.md.

include!(concat!(env!("OUT_DIR"), "/source.rs"));

#[cfg(feature = "library")]
pub mod bench;
pub mod beside;
#[cfg(feature = "library")]
mod clock;
pub mod decimals;
pub mod edges;
pub mod json;
pub mod leaves;
#[cfg(feature = "library")]
pub mod library;
pub mod list;
pub mod oracle;
pub mod sample;
pub mod statistics;
pub mod vectors;
