//! The run of a checked plan over a record that fits.
//!
//! Values are worked out when they are asked for, since what a mapping drops must not be: a mapped struct, list or
//! array is a view of its input and the selectors over it. A plan can ask for an output far past any limit (a list of
//! 300 elements in each element of another, and so on), so the output is written no further than the limit. What
//! follows is then searched for an overflow, every view once: views are equal when they have the same origin and the
//! same selectors over it, and of these there are no more than selectors times values.

use crate::form::{Fault, RECORD_LIMIT, Type};
use crate::hash::{FastMap, FastSet};
use crate::number::{Kind, Number, Overflow};
use crate::selector::Selector;
use crate::value::Value;
use std::rc::Rc;

#[derive(Clone)]
enum View<'a> {
    Null,
    Number(Number),
    Text(&'a [u8]),
    /// A strict date-time too large, converted further or not.
    Overflow,
    Struct(Parts<'a>),
    List(Parts<'a>),
    Array(Parts<'a>),
}

/// The fields of a struct or the elements of a list or array.
#[derive(Clone)]
enum Parts<'a> {
    /// In the record or in a constant.
    Given(&'a [Value<'a>]),
    Fields(Rc<Parts<'a>>, &'a [Selector<'a>]),
    Elements(Rc<Parts<'a>>, &'a Selector<'a>),
}

/// What a selector's positions count.
#[derive(Clone, Copy)]
enum Scope<'s, 'a> {
    Columns(&'s Parts<'a>),
    /// Position 0 is this element.
    Element(&'s Parts<'a>, usize),
}

impl<'a> View<'a> {
    fn of(value: &'a Value<'a>) -> View<'a> {
        match value {
            Value::Null => View::Null,
            Value::Number(number) => View::Number(*number),
            Value::Text(text) => View::Text(text),
            Value::Struct(values) => View::Struct(Parts::Given(values)),
            Value::List(values) => View::List(Parts::Given(values)),
            Value::Array(values) => View::Array(Parts::Given(values)),
        }
    }

    fn cast(self, type_: &Type) -> View<'a> {
        match (self, type_) {
            (View::Number(number), Type::Leaf(leaf)) => {
                match Kind::of(leaf).map(|kind| number.convert(kind)) {
                    Some(Ok(number)) => View::Number(number),
                    Some(Err(Overflow)) => View::Overflow,
                    None => View::Number(number),
                }
            }
            (view, _) => view,
        }
    }
}

impl<'a> Parts<'a> {
    fn len(&self) -> usize {
        match self {
            Parts::Given(values) => values.len(),
            Parts::Fields(_, selectors) => selectors.len(),
            Parts::Elements(input, _) => input.len(),
        }
    }

    fn get(&self, at: usize) -> View<'a> {
        match self {
            Parts::Given(values) => View::of(&values[at]),
            Parts::Fields(input, selectors) => view(Scope::Columns(input), &selectors[at]),
            Parts::Elements(input, selector) => view(Scope::Element(input, at), selector),
        }
    }
}

/// What a selector gives.
fn view<'a>(scope: Scope<'_, 'a>, selector: &'a Selector<'a>) -> View<'a> {
    match selector {
        Selector::Position(at) => match scope {
            Scope::Columns(parts) => parts.get(usize::from(*at)),
            Scope::Element(parts, element) => parts.get(element),
        },
        Selector::Constant { value, .. } => View::of(value),
        Selector::Cast { input, type_, .. } => view(scope, input).cast(type_),
        Selector::Rename { input, .. } => view(scope, input),
        Selector::StructMapping { input, fields } => match view(scope, input) {
            View::Struct(parts) => View::Struct(Parts::Fields(Rc::new(parts), fields)),
            other => other,
        },
        Selector::ListMapping { input, element } => match view(scope, input) {
            View::List(parts) => View::List(Parts::Elements(Rc::new(parts), element)),
            other => other,
        },
        Selector::ArrayMapping { input, element } => match view(scope, input) {
            View::Array(parts) => View::Array(Parts::Elements(Rc::new(parts), element)),
            other => other,
        },
    }
}

/// Why writing stops.
enum Stop {
    Overflow,
    Full,
}

struct Writer {
    bytes: Vec<u8>,
    limit: usize,
}

impl Writer {
    fn write(&mut self, view: View) -> Result<(), Stop> {
        match view {
            View::Null => self.bytes.push(0),
            View::Number(number) => {
                self.bytes.push(1);
                number.write(&mut self.bytes);
            }
            View::Text(text) => {
                self.bytes.push(1);
                self.bytes.extend((text.len() as u16).to_le_bytes());
                self.bytes.extend(text);
            }
            View::Overflow => return Err(Stop::Overflow),
            View::Struct(parts) | View::Array(parts) => {
                self.bytes.push(1);
                self.write_all(&parts)?;
            }
            View::List(parts) => {
                self.bytes.push(1);
                self.bytes.extend((parts.len() as u16).to_le_bytes());
                self.write_all(&parts)?;
            }
        }
        match self.bytes.len() <= self.limit {
            true => Ok(()),
            false => Err(Stop::Full),
        }
    }

    fn write_all(&mut self, parts: &Parts) -> Result<(), Stop> {
        (0..parts.len()).try_for_each(|at| self.write(parts.get(at)))
    }
}

/// What a view is, so far as it can be told without working it out.
#[derive(Clone, Copy, PartialEq, Eq, Hash)]
enum Key {
    Given(*const ()),
    Mapped(usize),
}

/// Looks for an overflow in views, in each once.
#[derive(Default)]
struct Search {
    /// The keys of inputs with the selectors over them.
    mapped: FastMap<(Key, *const ()), usize>,
    seen: FastSet<Key>,
}

impl Search {
    fn key(&mut self, parts: &Parts) -> Key {
        let (input, selectors) = match parts {
            Parts::Given(values) => return Key::Given(values.as_ptr().cast()),
            Parts::Fields(input, selectors) => (input, selectors.as_ptr().cast()),
            Parts::Elements(input, selector) => (input, std::ptr::from_ref(*selector).cast()),
        };
        let input = self.key(input);
        let next = self.mapped.len();
        Key::Mapped(*self.mapped.entry((input, selectors)).or_insert(next))
    }

    fn overflows(&mut self, view: &View) -> bool {
        let parts = match view {
            View::Null | View::Number(_) | View::Text(_) => return false,
            View::Overflow => return true,
            View::Struct(parts) | View::List(parts) | View::Array(parts) => parts,
        };
        // Without parts there is no key either.
        if parts.len() == 0 {
            return false;
        }
        let key = self.key(parts);
        self.seen.insert(key) && (0..parts.len()).any(|at| self.overflows(&parts.get(at)))
    }
}

/// The output's bytes, for a buffer of that length: 44, then 45.
pub fn run<'a>(
    plan: &'a [Selector<'a>],
    record: &'a [Value<'a>],
    space: usize,
) -> Result<Vec<u8>, Fault> {
    let columns = Parts::Given(record);
    let views = || {
        plan.iter()
            .map(|selector| view(Scope::Columns(&columns), selector))
    };
    let mut writer = Writer {
        bytes: Vec::new(),
        limit: space.min(RECORD_LIMIT),
    };
    match views().try_for_each(|view| writer.write(view)) {
        Ok(()) => Ok(writer.bytes),
        Err(Stop::Overflow) => Err(44),
        Err(Stop::Full) => {
            let mut search = Search::default();
            let overflows = views().any(|view| search.overflows(&view));
            Err(if overflows { 44 } else { 45 })
        }
    }
}
