//! Stand-in for the crate `polars-core`: types, schemas and the few values that a builder handles.

pub mod chunked_array;
pub mod column;
pub mod datatypes;
pub mod scalar;
pub mod schema;
pub mod series;
pub mod utils;

pub mod prelude {
    pub use crate::chunked_array::{ArrayChunked, ListChunked, StructChunked};
    pub use crate::column::{Column, IntoColumn};
    pub use crate::datatypes::{AnyValue, DataType, Field, TimeUnit, TimeZone, Value};
    pub use crate::utils::{InitHashMaps, PlHashMap};
    pub use arrow::array::LargeListArray;
}
