//! Why a call was refused.

use core::fmt;

/// A line for each kind of place of docs/refusals.txt but `none`: its name here and there, and what it counts.
macro_rules! places {
    ($($name:ident $word:literal $counts:literal;)*) => {
        /// What the place of a refusal counts.
        #[derive(Clone, Copy, Debug, PartialEq, Eq, Hash)]
        #[non_exhaustive]
        pub enum Place {
            $(#[doc = $counts] $name,)*
            /// Nothing: the place is 0.
            None,
        }

        impl Place {
            /// What it counts in a word; nothing where it counts nothing.
            pub const fn word(self) -> Option<&'static str> {
                match self {
                    $(Place::$name => Some($word),)*
                    Place::None => None,
                }
            }
        }
    };
}

places! {
    Input "input" "Which layout or table was refused, counted from 1 in the order in which they are read.";
    Column "column" "The position of the target's top column, from 0.";
    Selector "selector" "The number of the plan's top selector, from 0.";
    Incoming "incoming" "The position of the incoming top column, from 0.";
}

/// A line for each refusal of docs/refusals.txt: number, name, kind of place and words. compare/lists.py holds the two
/// together.
macro_rules! reasons {
    ($($number:literal $name:ident $place:ident $words:literal;)*) => {
        /// The reason of a refusal, by the names of docs/refusals.txt. docs/FORMATS.md says what causes each, and what
        /// to do about it.
        #[derive(Clone, Copy, Debug, PartialEq, Eq, Hash)]
        #[non_exhaustive]
        pub enum Reason {
            $(#[doc = $words] $name,)*
            /// A number that this crate does not know: the library is of a later edition.
            Unlisted(u32),
        }

        impl Reason {
            /// Every reason that has a name, as docs/refusals.txt lists them.
            pub const LISTED: &[Reason] = &[$(Reason::$name),*];

            /// The reason that has a number.
            pub const fn of_number(number: u32) -> Reason {
                match number {
                    $($number => Reason::$name,)*
                    number => Reason::Unlisted(number),
                }
            }

            /// Its number.
            pub const fn number(self) -> u32 {
                match self {
                    $(Reason::$name => $number,)*
                    Reason::Unlisted(number) => number,
                }
            }

            /// What its place counts.
            pub const fn place(self) -> Place {
                match self {
                    $(Reason::$name => Place::$place,)*
                    Reason::Unlisted(_) => Place::None,
                }
            }

            /// What it means, in the words of docs/refusals.txt.
            pub const fn meaning(self) -> &'static str {
                match self {
                    $(Reason::$name => $words,)*
                    Reason::Unlisted(_) => "unknown",
                }
            }
        }
    };
}

reasons! {
    1 UnknownMark Input "not a known mark and version";
    2 EndsEarly Input "the bytes end early";
    3 UnknownCode Input "unknown type code, unit or required mark; of a table: unknown type code, unit, kind or load \
        byte, a wrong precision or scale, a type that is no leaf, or a value that does not fit its type";
    4 TooLarge Input "more than 16384 bytes, a name or zone of more than 63, or a type deeper than 16; \
        of a table: more than 16384 bytes, or a zone of more than 63";
    5 Repeated Input "a column repeats a sibling's name or id; of a table: an entry repeats an id of its kind";
    6 BytesLeft Input "bytes are left over";
    50 DecimalLimits None "a decimal's precision is not 1 to 18, or its scale is larger than its precision";
    10 WrongVersion None "a layout of the wrong version";
    11 MissingColumn Column "a target column has no counterpart, and missing columns are not inserted";
    12 RepeatedName Column "a struct repeats a field's name";
    13 ExtraField Column "an incoming struct has a field that the target lacks, and such are not ignored";
    14 MissingField Column "a target struct's field has no counterpart, and missing fields are not inserted";
    15 NullUpcast Column "null to another type is not allowed";
    16 IntegerUpcast Column "a cast between integers is not allowed";
    17 IntegerRange Column "the target's range lacks an incoming value";
    18 FloatUpcast Column "a cast to a wider float is not allowed";
    19 FloatDowncast Column "a cast to a narrower float is not allowed";
    20 IntegerToFloat Column "a cast of an integer to a float is not allowed";
    21 TimeZone Column "a change of time zone is not allowed";
    22 TimeUnit Column "a change of time unit is not allowed";
    23 CategoryToString Column "a cast of a category to a string is not allowed";
    24 TypeMismatch Column "no rule takes the one type to the other";
    25 ElementId Column "the elements of two lists or arrays have different ids";
    26 DefaultNotLoaded Column "the default wanted is a partition's value that could not be loaded";
    27 PlanTooLong None "the plan is longer than the buffer or 65536 bytes";
    28 DefaultType Column "the default taken has a type unlike the field's";
    51 DecimalWidening None "a cast to a decimal of larger precision is not allowed";
    53 ExtraColumn Incoming "an incoming column has no counterpart, and extra columns are not ignored";
    54 MissingRequired None "a required field would be filled with null";
    55 OptionalToRequired None "an optional field meets a required one";
    30 MalformedPlan None "malformed plan";
    31 NoSuchPosition Selector "a selector takes a position that is not there";
    32 UnfitTransform Selector "a transform does not fit its input, or its result is too deep or too large a type";
    33 OtherLayout None "names, types or count of the columns made differ from the target's";
    40 RecordEnds None "the record ends early";
    41 RecordByte None "a bad presence or boolean byte in the record";
    42 RecordLeft None "bytes of the record are left over";
    43 RecordTooLong None "the record has more than 16384 bytes";
    44 Overflow None "a date-time is too large for its finer unit";
    45 OutputTooLong None "the output exceeds the buffer or 16384 bytes";
    52 DecimalTooLarge None "a decimal of the record has more digits than its precision";
    56 RecordNull None "null in a required field of the record";
}

/// A refusal: its reason, and its place, which [`Reason::place`] tells the meaning of.
#[derive(Clone, Copy, Debug, PartialEq, Eq, Hash)]
pub struct Refusal {
    /// The reason.
    pub reason: Reason,
    /// The place.
    pub place: u32,
}

impl Refusal {
    /// Of an answer of the C interface.
    pub(crate) fn of(answer: u64) -> Option<Refusal> {
        let number = (answer >> 32) as u32;
        (number != 0).then_some(Refusal {
            reason: Reason::of_number(number),
            place: answer as u32,
        })
    }

    /// The reason's number.
    pub const fn number(self) -> u32 {
        self.reason.number()
    }
}

impl fmt::Display for Refusal {
    fn fmt(&self, f: &mut fmt::Formatter<'_>) -> fmt::Result {
        write!(f, "refused {}: {}", self.number(), self.reason.meaning())?;
        match self.reason.place().word() {
            Some(word) => write!(f, " ({word} {})", self.place),
            None => Ok(()),
        }
    }
}

impl core::error::Error for Refusal {}
