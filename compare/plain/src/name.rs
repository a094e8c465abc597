//! A column's name: as many bytes as most names have stand in it, so that a tree of columns is read without a string on
//! the heap for each.

use std::fmt;
use std::hash::{Hash, Hasher};
use std::ops::Deref;

/// The longest name that stands in place.
const SHORT: usize = 22;

#[derive(Clone)]
pub struct Name(Place);

#[derive(Clone)]
enum Place {
    Short(u8, [u8; SHORT]),
    Long(Box<[u8]>),
}

impl Name {
    pub const EMPTY: Name = Name(Place::Short(0, [0; SHORT]));

    pub fn as_slice(&self) -> &[u8] {
        match &self.0 {
            Place::Short(length, bytes) => &bytes[..usize::from(*length)],
            Place::Long(bytes) => bytes,
        }
    }
}

impl From<&[u8]> for Name {
    fn from(bytes: &[u8]) -> Name {
        if bytes.len() > SHORT {
            return Name(Place::Long(bytes.into()));
        }
        let mut place = [0; SHORT];
        place[..bytes.len()].copy_from_slice(bytes);
        Name(Place::Short(bytes.len() as u8, place))
    }
}

impl From<Vec<u8>> for Name {
    fn from(bytes: Vec<u8>) -> Name {
        Name::from(bytes.as_slice())
    }
}

impl FromIterator<u8> for Name {
    fn from_iter<I: IntoIterator<Item = u8>>(bytes: I) -> Name {
        Name::from(Vec::from_iter(bytes))
    }
}

impl Deref for Name {
    type Target = [u8];

    fn deref(&self) -> &[u8] {
        self.as_slice()
    }
}

impl PartialEq for Name {
    fn eq(&self, other: &Name) -> bool {
        self.as_slice() == other.as_slice()
    }
}

impl Eq for Name {}

impl Hash for Name {
    fn hash<H: Hasher>(&self, state: &mut H) {
        self.as_slice().hash(state);
    }
}

impl fmt::Debug for Name {
    fn fmt(&self, f: &mut fmt::Formatter<'_>) -> fmt::Result {
        self.as_slice().fmt(f)
    }
}
