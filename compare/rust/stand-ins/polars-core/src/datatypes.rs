use polars_error::PolarsResult;
use polars_utils::pl_str::PlSmallStr;
use std::marker::PhantomData;

/// From the finest unit to the coarsest: the source compares them.
#[derive(Clone, Copy, Debug, PartialEq, Eq, PartialOrd, Ord)]
pub enum TimeUnit {
    Nanoseconds,
    Microseconds,
    Milliseconds,
}

#[derive(Clone, Debug, PartialEq, Eq)]
pub struct TimeZone(pub PlSmallStr);

impl TimeZone {
    /// Are the zones equal, or does each count as UTC: no zone, `UTC`, `Etc/UTC` or `Z`?
    pub fn eq_none_as_utc(left: Option<&TimeZone>, right: Option<&TimeZone>) -> bool {
        let is_utc = |zone: Option<&TimeZone>| match zone {
            Some(TimeZone(text)) => ["UTC", "Etc/UTC", "Z"].contains(&text.as_str()),
            None => true,
        };
        left == right || is_utc(left) && is_utc(right)
    }
}

#[derive(Clone, Debug, PartialEq, Eq)]
pub struct Field {
    pub name: PlSmallStr,
    pub dtype: DataType,
}

impl Field {
    pub fn name(&self) -> &PlSmallStr {
        &self.name
    }

    pub fn dtype(&self) -> &DataType {
        &self.dtype
    }
}

#[derive(Clone, Debug, PartialEq, Eq)]
pub enum DataType {
    Null,
    Boolean,
    Int8,
    Int16,
    Int32,
    Int64,
    UInt8,
    UInt16,
    UInt32,
    UInt64,
    Float16,
    Float32,
    Float64,
    /// Precision and scale. No rule of the source has decimals: they are equal to themselves, and to nothing else.
    Decimal(usize, usize),
    Date,
    Datetime(TimeUnit, Option<TimeZone>),
    String,
    Binary,
    Categorical,
    Struct(Vec<Field>),
    List(Box<DataType>),
    Array(Box<DataType>, usize),
}

impl DataType {
    pub fn is_null(&self) -> bool {
        matches!(self, Self::Null)
    }

    pub fn is_integer(&self) -> bool {
        crate::utils::integer_range(self).is_some()
    }

    pub fn is_float(&self) -> bool {
        matches!(self, Self::Float16 | Self::Float32 | Self::Float64)
    }

    pub fn is_string(&self) -> bool {
        matches!(self, Self::String)
    }

    pub fn is_categorical(&self) -> bool {
        matches!(self, Self::Categorical)
    }

    pub fn is_nested(&self) -> bool {
        matches!(self, Self::Struct(_) | Self::List(_) | Self::Array(..))
    }

    /// Extension types are left out.
    pub fn is_extension(&self) -> bool {
        false
    }

    /// There is no unknown type.
    pub fn materialize_unknown(self, _: bool) -> PolarsResult<DataType> {
        Ok(self)
    }
}

/// A value as a layout's records have it; a leaf's bytes are those after the presence byte.
#[derive(Clone, Debug, PartialEq, Eq)]
pub enum Value {
    Null,
    Leaf(Vec<u8>),
    Struct(Vec<Value>),
}

#[derive(Clone, Debug, PartialEq, Eq)]
pub struct AnyValue<'a> {
    dtype: DataType,
    value: Value,
    lifetime: PhantomData<&'a ()>,
}

impl AnyValue<'_> {
    pub fn new(dtype: DataType, value: Value) -> Self {
        Self {
            dtype,
            value,
            lifetime: PhantomData,
        }
    }

    pub fn dtype(&self) -> DataType {
        self.dtype.clone()
    }

    pub fn value(&self) -> &Value {
        &self.value
    }

    pub fn is_null(&self) -> bool {
        self.value == Value::Null
    }

    pub fn into_static(self) -> AnyValue<'static> {
        AnyValue::new(self.dtype, self.value)
    }
}
