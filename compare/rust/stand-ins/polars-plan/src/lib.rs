//! Stand-in for the crate `polars-plan`: the policies and the tables of defaults.

pub mod dsl {
    #[derive(Clone, Copy, Debug, PartialEq)]
    pub enum MissingColumnsPolicy {
        Raise,
        Insert,
    }

    #[derive(Clone, Copy, Debug, PartialEq)]
    pub enum ExtraColumnsPolicy {
        Raise,
        Ignore,
    }

    #[derive(Clone, Debug, PartialEq)]
    pub struct CastColumnsPolicy {
        pub null_upcast: bool,
        pub integer_upcast: bool,
        pub float_upcast: bool,
        pub float_downcast: bool,
        pub integer_to_float_cast: bool,
        pub datetime_convert_timezone: bool,
        pub datetime_nanoseconds_downcast: bool,
        pub datetime_microseconds_downcast: bool,
        pub datetime_microseconds_upcast: bool,
        pub datetime_milliseconds_upcast: bool,
        pub categorical_to_string: bool,
        pub missing_struct_fields: MissingColumnsPolicy,
        pub extra_struct_fields: ExtraColumnsPolicy,
    }

    pub mod default_values {
        use polars_core::prelude::{Column, PlHashMap};
        use polars_core::scalar::Scalar;

        #[derive(Clone, Debug, Default)]
        pub struct IcebergDefaultFieldValues {
            /// A value for each source, or why they could not be loaded.
            pub identity_transformed_partition_fields: PlHashMap<u32, Result<Column, String>>,
            pub initial_defaults: PlHashMap<u32, Scalar>,
        }
    }
}
