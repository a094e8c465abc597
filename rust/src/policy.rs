//! What a builder may do.

use core::fmt;
use core::ops::{BitAnd, BitAndAssign, BitOr, BitOrAssign, Sub, SubAssign};

/// A set of flags, each of which allows something. `Policy::ALL - Policy::NULL_UPCAST` is all but one.
///
/// ```
/// use column_selector::Policy;
///
/// const NUMBERS: Policy = Policy::INTEGER_UPCAST.union(Policy::FLOAT_UPCAST);
/// assert_eq!(format!("{NUMBERS:?}"), "Policy(INTEGER_UPCAST | FLOAT_UPCAST)");
/// ```
#[derive(Clone, Copy, PartialEq, Eq, Hash, Default)]
pub struct Policy(u32);

/// What a build does with an incoming top column that the target lacks.
#[derive(Clone, Copy, Debug, PartialEq, Eq, Hash, Default)]
pub enum ExtraColumns {
    /// It is left out of the plan, as `Policy::ALL` does.
    #[default]
    Ignore,
    /// The first one refuses the build with 53.
    Raise,
}

/// A line for each bit of docs/policy.txt: bit, name and what it allows. compare/lists.py holds the two together.
macro_rules! flags {
    ($($bit:literal $name:ident $allows:literal;)*) => {
        impl Policy {
            $(#[doc = $allows] pub const $name: Policy = Policy(1 << $bit);)*
            /// Everything is allowed.
            pub const ALL: Policy = Policy(0 $(| 1 << $bit)*);
            /// Every flag with its name, bits rising.
            pub const FLAGS: &[(&'static str, Policy)] = &[$((stringify!($name), Policy::$name)),*];
        }
    };
}

flags! {
    0 NULL_UPCAST "Null to any other type.";
    1 INTEGER_UPCAST "An integer to one whose range holds it.";
    2 FLOAT_UPCAST "A float to a wider one.";
    3 FLOAT_DOWNCAST "A float to a narrower one.";
    4 INTEGER_TO_FLOAT_CAST "An integer to a float.";
    5 DATETIME_CONVERT_TIMEZONE "A date-time to another zone; its count stays.";
    6 DATETIME_NANOSECONDS_DOWNCAST "Nanoseconds to a coarser unit.";
    7 DATETIME_MICROSECONDS_DOWNCAST "Microseconds to milliseconds.";
    8 DATETIME_MICROSECONDS_UPCAST "Microseconds to nanoseconds.";
    9 DATETIME_MILLISECONDS_UPCAST "Milliseconds to a finer unit.";
    10 CATEGORICAL_TO_STRING "A category to a string.";
    11 INSERT_MISSING_STRUCT_FIELDS "A struct's field that is missing is inserted.";
    12 IGNORE_EXTRA_STRUCT_FIELDS "A struct's field that the target lacks is ignored.";
    13 INSERT_MISSING_COLUMNS "A column that is missing is inserted.";
    14 DECIMAL_WIDENING "A decimal to one of larger precision at the same scale.";
    15 IGNORE_EXTRA_COLUMNS "An incoming column that the target lacks is ignored.";
}

impl Policy {
    /// Nothing is allowed: extra columns are refused.
    pub const NONE: Policy = Policy(0);

    /// The policy of a word of the C interface; bits without a meaning are ignored.
    pub const fn from_word(word: u32) -> Policy {
        Policy(word & Policy::ALL.0)
    }

    /// The word of the C interface.
    pub const fn word(self) -> u32 {
        self.0
    }

    /// Whether all of these are allowed.
    pub const fn allows(self, flags: Policy) -> bool {
        self.0 & flags.0 == flags.0
    }

    /// What one or the other allows; `|` for constants.
    pub const fn union(self, other: Policy) -> Policy {
        Policy(self.0 | other.0)
    }

    /// What both allow; `&` for constants.
    pub const fn intersection(self, other: Policy) -> Policy {
        Policy(self.0 & other.0)
    }

    /// What the one allows and the other doesn't name; `-` for constants.
    pub const fn difference(self, other: Policy) -> Policy {
        Policy(self.0 & !other.0)
    }

    /// The same with extra columns ignored or refused.
    pub const fn with_extra_columns(self, choice: ExtraColumns) -> Policy {
        match choice {
            ExtraColumns::Ignore => self.union(Policy::IGNORE_EXTRA_COLUMNS),
            ExtraColumns::Raise => self.difference(Policy::IGNORE_EXTRA_COLUMNS),
        }
    }
}

/// The flags by name.
impl fmt::Debug for Policy {
    fn fmt(&self, f: &mut fmt::Formatter<'_>) -> fmt::Result {
        f.write_str("Policy(")?;
        if *self == Policy::NONE {
            f.write_str("NONE")?;
        }
        let mut separator = "";
        for (name, flag) in Policy::FLAGS {
            if self.allows(*flag) {
                write!(f, "{separator}{name}")?;
                separator = " | ";
            }
        }
        f.write_str(")")
    }
}

macro_rules! operators {
    ($($operator:ident $method:ident $assigning:ident $assign:ident $function:ident;)*) => {$(
        impl $operator for Policy {
            type Output = Policy;

            fn $method(self, other: Policy) -> Policy {
                self.$function(other)
            }
        }

        impl $assigning for Policy {
            fn $assign(&mut self, other: Policy) {
                *self = self.$function(other);
            }
        }
    )*};
}

operators! {
    BitOr bitor BitOrAssign bitor_assign union;
    BitAnd bitand BitAndAssign bitand_assign intersection;
    Sub sub SubAssign sub_assign difference;
}
