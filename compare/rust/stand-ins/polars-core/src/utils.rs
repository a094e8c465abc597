use crate::datatypes::DataType;
use plain::hash::FastMap;
use std::hash::{BuildHasherDefault, Hash};

pub type PlHashMap<K, V> = FastMap<K, V>;

/// The constructors of a hash map whose hasher is not the standard one.
pub trait InitHashMaps {
    fn with_capacity(capacity: usize) -> Self;
}

impl<K: Eq + Hash, V> InitHashMaps for PlHashMap<K, V> {
    fn with_capacity(capacity: usize) -> Self {
        Self::with_capacity_and_hasher(capacity, BuildHasherDefault::default())
    }
}

/// From narrow to wide.
const INTEGERS: [DataType; 8] = [
    DataType::Int8,
    DataType::UInt8,
    DataType::Int16,
    DataType::UInt16,
    DataType::Int32,
    DataType::UInt32,
    DataType::Int64,
    DataType::UInt64,
];

/// The least and the greatest value of an integer type.
pub fn integer_range(dtype: &DataType) -> Option<(i128, i128)> {
    let signed = |bits: u32| Some((-(1i128 << (bits - 1)), (1i128 << (bits - 1)) - 1));
    let unsigned = |bits: u32| Some((0, (1i128 << bits) - 1));
    match dtype {
        DataType::Int8 => signed(8),
        DataType::Int16 => signed(16),
        DataType::Int32 => signed(32),
        DataType::Int64 => signed(64),
        DataType::UInt8 => unsigned(8),
        DataType::UInt16 => unsigned(16),
        DataType::UInt32 => unsigned(32),
        DataType::UInt64 => unsigned(64),
        _ => None,
    }
}

/// The narrowest integer type that has every value of both, if there is one. The source asks of integers alone.
pub fn get_numeric_upcast_supertype_lossless(
    left: &DataType,
    right: &DataType,
) -> Option<DataType> {
    let (left, right) = (integer_range(left)?, integer_range(right)?);
    let holds = |wide: (i128, i128), narrow: (i128, i128)| wide.0 <= narrow.0 && narrow.1 <= wide.1;
    INTEGERS.into_iter().find(|dtype| {
        integer_range(dtype).is_some_and(|wide| holds(wide, left) && holds(wide, right))
    })
}
