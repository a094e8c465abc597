use crate::chunked_array::cast::CastOptions;
use crate::datatypes::{AnyValue, DataType, Value};
use crate::scalar::Scalar;
use crate::series::Series;
use polars_error::{PolarsResult, polars_err};
use polars_utils::pl_str::PlSmallStr;

/// A column of the defaults: a value for each source, or the one value of a default that is being put together.
#[derive(Clone, Debug)]
pub struct Column {
    pub name: PlSmallStr,
    pub dtype: DataType,
    pub values: Vec<Value>,
}

#[allow(clippy::len_without_is_empty)]
impl Column {
    pub fn full_null(name: PlSmallStr, count: usize, dtype: &DataType) -> Self {
        Self {
            name,
            dtype: dtype.clone(),
            values: vec![Value::Null; count],
        }
    }

    pub fn with_name(self, name: PlSmallStr) -> Self {
        Self { name, ..self }
    }

    pub fn len(&self) -> usize {
        self.values.len()
    }

    pub fn dtype(&self) -> &DataType {
        &self.dtype
    }

    pub fn get(&self, index: usize) -> PolarsResult<AnyValue<'_>> {
        match self.values.get(index) {
            Some(value) => Ok(AnyValue::new(self.dtype.clone(), value.clone())),
            None => Err(polars_err!(ComputeError: "index {} is past the end", index)),
        }
    }
}

/// What the application of selectors to Arrow columns needs to be compiled.
impl Column {
    pub fn new_scalar(_: PlSmallStr, _: Scalar, _: usize) -> Self {
        unreachable!()
    }

    pub fn cast_with_options(&self, _: &DataType, _: CastOptions) -> PolarsResult<Column> {
        unreachable!()
    }

    pub fn _get_backing_series(&self) -> Series {
        unreachable!()
    }

    pub fn _to_new_from_backing(&self, _: Series) -> Column {
        unreachable!()
    }

    pub fn as_materialized_series(&self) -> &Series {
        unreachable!()
    }
}

pub trait IntoColumn {
    fn into_column(self) -> Column;
}
