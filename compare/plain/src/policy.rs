//! The bits of the policy word, 1 allows, by the names of docs/policy.txt.

pub const NULL_UPCAST: u32 = 1 << 0;
pub const INTEGER_UPCAST: u32 = 1 << 1;
pub const FLOAT_UPCAST: u32 = 1 << 2;
pub const FLOAT_DOWNCAST: u32 = 1 << 3;
pub const INTEGER_TO_FLOAT_CAST: u32 = 1 << 4;
pub const DATETIME_CONVERT_TIMEZONE: u32 = 1 << 5;
pub const DATETIME_NANOSECONDS_DOWNCAST: u32 = 1 << 6;
pub const DATETIME_MICROSECONDS_DOWNCAST: u32 = 1 << 7;
pub const DATETIME_MICROSECONDS_UPCAST: u32 = 1 << 8;
pub const DATETIME_MILLISECONDS_UPCAST: u32 = 1 << 9;
pub const CATEGORICAL_TO_STRING: u32 = 1 << 10;
pub const MISSING_STRUCT_FIELDS: u32 = 1 << 11;
pub const EXTRA_STRUCT_FIELDS: u32 = 1 << 12;
pub const MISSING_COLUMNS: u32 = 1 << 13;
pub const DECIMAL_WIDENING: u32 = 1 << 14;
pub const EXTRA_COLUMNS: u32 = 1 << 15;

/// Every flag on, Insert and Ignore.
pub const ALL: u32 = 0xFFFF;
/// The bits with a meaning are those below.
pub const BITS: u32 = u32::BITS - ALL.leading_zeros();
