//! The arguments of a build.

/// But for the buffer.
#[derive(Clone, Debug, PartialEq, Eq)]
pub struct Case {
    pub policy: u32,
    pub incoming: Vec<u8>,
    pub target: Vec<u8>,
    /// What a build by number has besides.
    pub number: Option<Number>,
}

#[derive(Clone, Debug, PartialEq, Eq)]
pub struct Number {
    pub source_index: u32,
    pub owner: u16,
    pub defaults: Vec<u8>,
}
