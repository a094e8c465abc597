//! Stand-in for the crate `polars-utils`: its small string, which stands in place where it is short.

pub mod pl_str {
    use plain::name::Name;
    use std::fmt;
    use std::ops::Deref;

    /// Always text.
    #[derive(Clone, PartialEq, Eq, Hash)]
    pub struct PlSmallStr(Name);

    impl PlSmallStr {
        pub const EMPTY: Self = Self(Name::EMPTY);

        pub fn as_str(&self) -> &str {
            // SAFETY: it is made from text alone.
            unsafe { std::str::from_utf8_unchecked(&self.0) }
        }
    }

    impl From<&str> for PlSmallStr {
        fn from(text: &str) -> Self {
            Self(text.as_bytes().into())
        }
    }

    impl Deref for PlSmallStr {
        type Target = str;

        fn deref(&self) -> &str {
            self.as_str()
        }
    }

    impl fmt::Debug for PlSmallStr {
        fn fmt(&self, f: &mut fmt::Formatter<'_>) -> fmt::Result {
            self.as_str().fmt(f)
        }
    }

    impl fmt::Display for PlSmallStr {
        fn fmt(&self, f: &mut fmt::Formatter<'_>) -> fmt::Result {
            f.write_str(self)
        }
    }
}
