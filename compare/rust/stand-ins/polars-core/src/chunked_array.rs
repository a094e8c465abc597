use crate::column::Column;
use crate::datatypes::{DataType, Field, Value};
use arrow::array::{Array, Bitmap, FixedSizeListArray, LargeListArray};
use polars_error::PolarsResult;
use polars_utils::pl_str::PlSmallStr;

pub mod cast {
    #[derive(Clone, Copy, Debug, PartialEq, Eq)]
    pub enum CastOptions {
        NonStrict,
        Strict,
        Overflowing,
    }
}

pub mod flags {
    pub struct StatisticsFlags;

    impl StatisticsFlags {
        pub const CAN_FAST_EXPLODE_LIST: Self = Self;
    }
}

pub struct StructChunked(pub(crate) Column);

impl StructChunked {
    /// A struct of the columns in order; the value at each index has their values there.
    pub fn from_columns(name: PlSmallStr, count: usize, columns: &[Column]) -> PolarsResult<Self> {
        let field = |column: &Column| Field {
            name: column.name.clone(),
            dtype: column.dtype.clone(),
        };
        let value = |index: usize| {
            let values = columns.iter().map(|column| column.values[index].clone());
            Value::Struct(values.collect())
        };
        Ok(Self(Column {
            name,
            dtype: DataType::Struct(columns.iter().map(field).collect()),
            values: (0..count).map(value).collect(),
        }))
    }
}

/// What the application of selectors to Arrow columns needs to be compiled.
#[allow(clippy::len_without_is_empty)]
impl StructChunked {
    pub fn name(&self) -> &PlSmallStr {
        unreachable!()
    }

    pub fn len(&self) -> usize {
        unreachable!()
    }

    pub fn fields_as_columns(&self) -> Vec<Column> {
        unreachable!()
    }

    pub fn rechunk_validity(&self) -> Option<Bitmap> {
        unreachable!()
    }

    pub fn with_outer_validity(self, _: Option<Bitmap>) -> Self {
        unreachable!()
    }
}

#[derive(Clone)]
pub struct ListChunked;

impl ListChunked {
    pub fn name(&self) -> &PlSmallStr {
        unreachable!()
    }

    pub fn dtype(&self) -> &DataType {
        unreachable!()
    }

    pub fn chunks(&self) -> &Vec<Box<dyn Array>> {
        unreachable!()
    }

    pub fn downcast_iter(&self) -> std::slice::Iter<'_, LargeListArray> {
        unreachable!()
    }

    /// # Safety
    /// Not called.
    pub unsafe fn from_chunks(_: PlSmallStr, _: Vec<Box<dyn Array>>) -> Self {
        unreachable!()
    }

    pub fn set_inner_dtype(&mut self, _: DataType) {
        unreachable!()
    }

    pub fn retain_flags_from(&mut self, _: &Self, _: flags::StatisticsFlags) {
        unreachable!()
    }
}

#[derive(Clone)]
pub struct ArrayChunked;

impl ArrayChunked {
    pub fn name(&self) -> &PlSmallStr {
        unreachable!()
    }

    pub fn dtype(&self) -> &DataType {
        unreachable!()
    }

    pub fn chunks(&self) -> &Vec<Box<dyn Array>> {
        unreachable!()
    }

    pub fn downcast_iter(&self) -> std::slice::Iter<'_, FixedSizeListArray> {
        unreachable!()
    }

    /// # Safety
    /// Not called.
    pub unsafe fn from_chunks(_: PlSmallStr, _: Vec<Box<dyn Array>>) -> Self {
        unreachable!()
    }

    pub fn set_inner_dtype(&mut self, _: DataType) {
        unreachable!()
    }
}
