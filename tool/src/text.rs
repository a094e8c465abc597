//! The text form of layouts, tables of defaults and records; docs/TEXT.md says it for people.

mod lex;
mod parse;
mod parse_layout;
mod parse_record;
mod parse_table;
mod print;
mod quote;

pub use lex::{Place, TextError};
pub use parse::{Kind, Places, kind_of};
pub use parse_layout::{parse_layout, type_name};
pub use parse_record::parse_record;
pub use parse_table::parse_table;
pub use print::{
    Line, aligned, brief_type, hex, layout_text, record_text, table_text, type_text, value_lines,
    value_text,
};
pub use quote::{name_text, quoted};
