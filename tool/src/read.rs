//! The readers of bytes. They follow docs/FORMATS.md forward, byte by byte, and where the bytes are broken say at which
//! byte, in which column and what was expected there. The library decides whether bytes are refused; these find where.

mod cursor;
mod layout;
mod plan;
mod table;
mod value;

pub use cursor::{Cause, Fault, File, Step, path_text};
pub use layout::read_layout;
pub use plan::read_plan;
pub use table::read_table;
pub use value::read_record;
