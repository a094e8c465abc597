//! Bytes by what they are, so that no call takes one for another.

use crate::{Refusal, call};

macro_rules! bytes {
    ($($(#[$doc:meta])* $name:ident;)*) => {$(
        $(#[$doc])*
        #[derive(Clone, Copy, Debug, PartialEq, Eq, Hash)]
        pub struct $name<'a>(&'a [u8]);

        impl<'a> $name<'a> {
            /// Bytes that were stored or received. Nothing is tested.
            pub const fn new(bytes: &'a [u8]) -> $name<'a> {
                $name(bytes)
            }

            /// The bytes.
            pub const fn as_bytes(self) -> &'a [u8] {
                self.0
            }
        }
    )*};
}

bytes! {
    /// A layout's bytes. That they are a layout is what [`Layout::read`] says; every call that takes one tests it too.
    Layout;
    /// A record's bytes. What they hold is said by a layout.
    Record;
    /// A plan's bytes. That they are a plan, and one between two layouts, is what [`Plan::check`] says.
    Plan;
}

impl<'a> Layout<'a> {
    /// Reads a layout to its end.
    pub fn read(bytes: &'a [u8]) -> Result<Layout<'a>, Refusal> {
        call::read_layout(bytes).map(|_| Layout(bytes))
    }
}

/// The layout of the records that come in.
#[derive(Clone, Copy, Debug, PartialEq, Eq, Hash)]
pub struct Incoming<'a>(pub Layout<'a>);

/// The layout of the records that go out.
#[derive(Clone, Copy, Debug, PartialEq, Eq, Hash)]
pub struct Target<'a>(pub Layout<'a>);

/// A table of defaults, which of a partition's values counts, and whose entries do.
#[derive(Clone, Copy, Debug, PartialEq, Eq, Hash)]
pub struct Defaults<'a> {
    bytes: &'a [u8],
    source_index: u32,
    owner: u16,
}

impl<'a> Defaults<'a> {
    /// A table without entries.
    pub const NONE: Defaults<'static> = Defaults::new(b"DEF\x01\x00\x00\x00");

    /// Bytes that were stored or received, of which nothing is tested. Of a partition's values the first counts, and of
    /// a table of version 2 the entries of owner 0.
    pub const fn new(bytes: &'a [u8]) -> Defaults<'a> {
        Defaults {
            bytes,
            source_index: 0,
            owner: 0,
        }
    }

    /// The same table; of a partition's values the source index, from 0, picks one.
    pub const fn with_source(self, source_index: u32) -> Defaults<'a> {
        Defaults {
            source_index,
            ..self
        }
    }

    /// The same table; of version 2 the entries of this owner count, of version 1 all.
    pub const fn with_owner(self, owner: u16) -> Defaults<'a> {
        Defaults { owner, ..self }
    }

    /// The table's bytes.
    pub const fn as_bytes(self) -> &'a [u8] {
        self.bytes
    }

    /// Whose entries count.
    pub const fn owner(self) -> u16 {
        self.owner
    }

    /// Which of a partition's values counts.
    pub const fn source_index(self) -> u32 {
        self.source_index
    }
}
