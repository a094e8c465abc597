use crate::chunked_array::{ArrayChunked, ListChunked, StructChunked};
use crate::column::{Column, IntoColumn};
use crate::datatypes::{AnyValue, DataType};
use arrow::array::Array;
use polars_error::{PolarsResult, polars_err};
use polars_utils::pl_str::PlSmallStr;

pub struct Series(pub Column);

impl Series {
    /// The values have one type, the first one's.
    pub fn from_any_values(
        name: PlSmallStr,
        values: &[AnyValue<'_>],
        _strict: bool,
    ) -> PolarsResult<Self> {
        let Some(first) = values.first() else {
            return Err(polars_err!(ComputeError: "no value"));
        };
        Ok(Self(Column {
            name,
            dtype: first.dtype(),
            values: values.iter().map(|value| value.value().clone()).collect(),
        }))
    }
}

impl IntoColumn for Series {
    fn into_column(self) -> Column {
        self.0
    }
}

/// What the application of selectors to Arrow columns needs to be compiled.
impl Series {
    /// # Safety
    /// Not called.
    pub unsafe fn from_chunks_and_dtype_unchecked(
        _: PlSmallStr,
        _: Vec<Box<dyn Array>>,
        _: &DataType,
    ) -> Self {
        unreachable!()
    }

    pub fn struct_(&self) -> PolarsResult<&StructChunked> {
        unreachable!()
    }

    pub fn list(&self) -> PolarsResult<&ListChunked> {
        unreachable!()
    }

    pub fn array(&self) -> PolarsResult<&ArrayChunked> {
        unreachable!()
    }

    pub fn rechunk(&self) -> Series {
        unreachable!()
    }

    pub fn into_chunks(self) -> Vec<Box<dyn Array>> {
        unreachable!()
    }
}

pub trait IntoSeries {
    fn into_series(self) -> Series;
}

impl IntoSeries for StructChunked {
    fn into_series(self) -> Series {
        Series(self.0)
    }
}

impl IntoSeries for ListChunked {
    fn into_series(self) -> Series {
        unreachable!()
    }
}

impl IntoSeries for ArrayChunked {
    fn into_series(self) -> Series {
        unreachable!()
    }
}
