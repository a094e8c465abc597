//! Stand-in for the crate `polars-error`: the three kinds of error that the source raises, with their text.

use std::fmt;

#[derive(Clone, Debug)]
pub enum PolarsError {
    ColumnNotFound(String),
    ComputeError(String),
    SchemaMismatch(String),
}

pub type PolarsResult<T> = Result<T, PolarsError>;

impl fmt::Display for PolarsError {
    fn fmt(&self, f: &mut fmt::Formatter<'_>) -> fmt::Result {
        match self {
            Self::ColumnNotFound(text) | Self::ComputeError(text) | Self::SchemaMismatch(text) => {
                f.write_str(text)
            }
        }
    }
}

#[macro_export]
macro_rules! polars_err {
    ($kind:ident: $format:literal $(, $argument:expr)* $(,)?) => {
        $crate::PolarsError::$kind(format!($format $(, $argument)*))
    };
}

#[macro_export]
macro_rules! polars_bail {
    ($($tokens:tt)+) => {
        return Err($crate::polars_err!($($tokens)+))
    };
}

#[macro_export]
macro_rules! feature_gated {
    ($feature:literal, $content:expr) => {{
        #[cfg(feature = $feature)]
        {
            $content
        }
        #[cfg(not(feature = $feature))]
        {
            panic!("the feature {} is off", $feature)
        }
    }};
}
