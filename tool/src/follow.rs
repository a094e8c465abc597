//! What a plan makes and what it takes, by its selectors and the incoming columns.

use crate::form::{Column, Selector, Type};
use std::collections::BTreeSet;

/// The most columns and fields in a type that is followed; the check refuses larger ones.
const SIZE_LIMIT: usize = 16_384;

/// The column that a selector makes of the columns around it; none where it takes one that is not there, maps what is
/// of another kind, or makes too large a type.
pub fn made(selector: &Selector, scope: &[Column]) -> Option<Column> {
    match selector {
        Selector::Position(position) => scope.get(usize::from(*position)).cloned(),
        Selector::Constant(name, of, _) => Some(Column::named(name.clone(), of.clone())),
        Selector::Cast(input, of, _) => Some(Column {
            of: of.clone(),
            ..made(input, scope)?
        }),
        Selector::Rename(input, name) => Some(Column {
            name: name.clone(),
            ..made(input, scope)?
        }),
        Selector::Struct(input, fields) => {
            let input = made(input, scope)?;
            let Type::Struct(inner) = &input.of else {
                return None;
            };
            let of = Type::Struct(made_row(fields, inner)?);
            Some(Column { of, ..input })
        }
        Selector::List(input, element) | Selector::Array(input, element) => {
            let input = made(input, scope)?;
            let inner = made(element, element_of(selector, &input.of)?)?;
            let of = match input.of {
                Type::Array(width, _) => Type::Array(width, Box::new(inner)),
                _ => Type::List(Box::new(inner)),
            };
            Some(Column { of, ..input })
        }
    }
}

/// The columns that selectors make side by side.
pub fn made_row(selectors: &[Selector], scope: &[Column]) -> Option<Vec<Column>> {
    let mut size = 0;
    selectors
        .iter()
        .map(|selector| {
            let column = made(selector, scope)?;
            size += count(&column);
            (size <= SIZE_LIMIT).then_some(column)
        })
        .collect()
}

fn count(column: &Column) -> usize {
    1 + column.of.inside().iter().map(count).sum::<usize>()
}

/// What is around the selector of a mapping: the element of its input, if that is of its kind.
fn element_of<'a>(mapping: &Selector, input: &'a Type) -> Option<&'a [Column]> {
    match (mapping, input) {
        (Selector::List(..), Type::List(_)) | (Selector::Array(..), Type::Array(..)) => {
            Some(input.inside())
        }
        _ => None,
    }
}

/// What is around the inner selectors of a mapping; none where it does not fit its input.
pub fn inner_scope(mapping: &Selector, scope: &[Column]) -> Option<Vec<Column>> {
    let input = made(mapping.input()?, scope)?;
    match (mapping, &input.of) {
        (Selector::Struct(..), Type::Struct(fields)) => Some(fields.clone()),
        (mapping, of) => element_of(mapping, of).map(<[Column]>::to_vec),
    }
}

/// The places of incoming columns and fields, by their indexes from the top; an element is at 0.
pub type Way = Vec<usize>;

/// What a plan takes of the incoming columns.
#[derive(Default)]
struct Taken {
    /// With all that is in them.
    whole: BTreeSet<Way>,
    /// These, and what they stand in.
    touched: BTreeSet<Way>,
}

/// The incoming columns and fields that a plan drops, the outermost of each.
pub fn dropped(selectors: &[Selector], incoming: &[Column]) -> Vec<Way> {
    let mut taken = Taken::default();
    for selector in selectors {
        taken.take(selector, &[]);
    }
    let mut found = Vec::new();
    taken.left(incoming, &mut Vec::new(), &mut found);
    found
}

impl Taken {
    /// Notes what a selector takes of the columns at a way.
    fn take(&mut self, selector: &Selector, scope: &[usize]) {
        match selector {
            Selector::Position(position) => {
                let way = [scope, &[usize::from(*position)]].concat();
                self.touch(&way);
                self.whole.insert(way);
            }
            Selector::Constant(..) => {}
            Selector::Cast(input, ..) | Selector::Rename(input, _) => self.take(input, scope),
            Selector::Struct(input, fields) => match origin(input, scope) {
                Some(way) => {
                    self.touch(&way);
                    fields.iter().for_each(|field| self.take(field, &way));
                }
                None => self.take(input, scope),
            },
            Selector::List(input, element) | Selector::Array(input, element) => {
                match origin(input, scope) {
                    Some(way) => {
                        self.touch(&way);
                        self.take(element, &way);
                    }
                    None => self.take(input, scope),
                }
            }
        }
    }

    fn touch(&mut self, way: &[usize]) {
        for length in 1..=way.len() {
            self.touched.insert(way[..length].to_vec());
        }
    }

    fn left(&self, columns: &[Column], way: &mut Way, found: &mut Vec<Way>) {
        for (index, column) in columns.iter().enumerate() {
            way.push(index);
            if !self.touched.contains(way) {
                found.push(way.clone());
            } else if !self.whole.contains(way) {
                match &column.of {
                    Type::Struct(fields) => self.left(fields, way, found),
                    // An element that is not taken, as by a constant, is no column that is dropped.
                    Type::List(element) | Type::Array(_, element) if self.element_taken(way) => {
                        self.left(std::slice::from_ref(element), way, found);
                    }
                    _ => {}
                }
            }
            way.pop();
        }
    }

    fn element_taken(&self, way: &Way) -> bool {
        self.touched.contains(&[way.as_slice(), &[0]].concat())
    }
}

/// The incoming column that a selector takes as it is, but for its name.
fn origin(selector: &Selector, scope: &[usize]) -> Option<Way> {
    match selector {
        Selector::Position(position) => Some([scope, &[usize::from(*position)]].concat()),
        Selector::Rename(input, _) => origin(input, scope),
        _ => None,
    }
}
