use crate::datatypes::{AnyValue, DataType, Value};
use std::cell::Cell;

#[derive(Clone, Debug)]
pub struct Scalar {
    value: AnyValue<'static>,
}

thread_local! {
    static TAKEN: Cell<u64> = const { Cell::new(0) };
}

/// How many scalars `new` has made in this thread. The source makes one just when a struct's default is a value.
pub fn taken() -> u64 {
    TAKEN.get()
}

impl Scalar {
    pub fn new(dtype: DataType, value: AnyValue<'static>) -> Self {
        TAKEN.set(TAKEN.get() + 1);
        Self::initial(dtype, value.value().clone())
    }

    /// An entry of a table of defaults.
    pub fn initial(dtype: DataType, value: Value) -> Self {
        Self {
            value: AnyValue::new(dtype, value),
        }
    }

    pub fn null(dtype: DataType) -> Self {
        Self::initial(dtype, Value::Null)
    }

    pub fn is_null(&self) -> bool {
        self.value.is_null()
    }

    pub fn as_any_value(&self) -> AnyValue<'_> {
        self.value.clone()
    }
}
