//! Nullness (document 02, L5): what is known of each place of a column that a selector gives, and whether it will do
//! for a target with required fields. The plan has passed all other tests of the check.

use crate::form::{Column, Leaf, Type};
use crate::selector::Selector;
use crate::value::Value;
use std::rc::Rc;

#[derive(Clone, Copy, PartialEq, Eq)]
enum Mark {
    Required,
    Optional,
    /// A constant or a cast of null has no value here.
    NoValue,
}

#[derive(Clone)]
struct Nullness {
    mark: Mark,
    inside: Inside,
}

/// The fields of a struct, or the one element of a list or array. None where no value stands below.
type Inside = Option<Rc<[Nullness]>>;

impl Nullness {
    /// Of an incoming column. A null type is optional, whatever its mark.
    fn of(column: &Column) -> Nullness {
        let required = column.required && column.type_ != Type::Leaf(Leaf::Plain(0));
        let inside = match &column.type_ {
            Type::Leaf(_) => None,
            Type::Struct(columns) => Some(columns.iter().map(Nullness::of).collect()),
            Type::List(element) | Type::Array(_, element) => Some([Nullness::of(element)].into()),
        };
        let mark = match required {
            true => Mark::Required,
            false => Mark::Optional,
        };
        Nullness { mark, inside }
    }

    /// Of a place of a constant, by the values that it has there; below a null there is none.
    fn of_values(type_: &Type, values: &[&Value]) -> Nullness {
        let present: Vec<&[Value]> = values.iter().filter_map(|value| parts(value)).collect();
        let inside = || match type_ {
            Type::Leaf(_) => None,
            Type::Struct(columns) => {
                let field = |(at, column): (usize, &Column)| {
                    let values: Vec<&Value> = present.iter().map(|parts| &parts[at]).collect();
                    Nullness::of_values(&column.type_, &values)
                };
                Some(columns.iter().enumerate().map(field).collect())
            }
            Type::List(element) | Type::Array(_, element) => {
                let values: Vec<&Value> = present.iter().flat_map(|parts| *parts).collect();
                Some([Nullness::of_values(&element.type_, &values)].into())
            }
        };
        let mark = match values {
            [] => Mark::NoValue,
            values if values.iter().any(|value| **value == Value::Null) => Mark::Optional,
            _ => Mark::Required,
        };
        Nullness {
            mark,
            inside: if present.is_empty() { None } else { inside() },
        }
    }

    /// Whether it does for a column of the target.
    fn does_for(&self, column: &Column) -> bool {
        if column.required && self.mark == Mark::Optional {
            return false;
        }
        let Some(inside) = &self.inside else {
            return true;
        };
        match &column.type_ {
            Type::Leaf(_) => true,
            Type::Struct(columns) => do_for(inside, columns),
            Type::List(element) | Type::Array(_, element) => inside[0].does_for(element),
        }
    }
}

/// What stands inside a value that is present.
fn parts<'v, 'a>(value: &'v Value<'a>) -> Option<&'v [Value<'a>]> {
    match value {
        Value::Null => None,
        Value::Number(_) | Value::Text(_) => Some(&[]),
        Value::Struct(parts) | Value::List(parts) | Value::Array(parts) => Some(parts),
    }
}

fn do_for(given: &[Nullness], columns: &[Column]) -> bool {
    let mut pairs = given.iter().zip(columns);
    pairs.all(|(given, column)| given.does_for(column))
}

/// Of what a selector gives over columns or an element.
fn nullness(scope: &Inside, selector: &Selector) -> Nullness {
    match selector {
        Selector::Position(at) => match scope {
            Some(columns) => columns[usize::from(*at)].clone(),
            None => Nullness {
                mark: Mark::NoValue,
                inside: None,
            },
        },
        Selector::Constant { type_, value, .. } => Nullness::of_values(type_, &[value]),
        // A leaf has no places inside, and below a null type that is made a nested one no value stands.
        Selector::Cast { input, .. } => Nullness {
            inside: None,
            ..nullness(scope, input)
        },
        Selector::Rename { input, .. } => nullness(scope, input),
        Selector::StructMapping { input, fields } => {
            let input = nullness(scope, input);
            let field = |one| nullness(&input.inside, one);
            Nullness {
                inside: Some(fields.iter().map(field).collect()),
                ..input
            }
        }
        Selector::ListMapping { input, element } | Selector::ArrayMapping { input, element } => {
            let input = nullness(scope, input);
            Nullness {
                inside: Some([nullness(&input.inside, element)].into()),
                ..input
            }
        }
    }
}

/// Whether a mark stands anywhere in the columns.
pub fn has_required(columns: &[Column]) -> bool {
    columns.iter().any(|column| {
        column.required
            || match &column.type_ {
                Type::Leaf(_) => false,
                Type::Struct(columns) => has_required(columns),
                Type::List(element) | Type::Array(_, element) => {
                    has_required(std::slice::from_ref(element))
                }
            }
    })
}

/// Marks each place of the columns that a plan gives where it may be required, and so each that it does not give; the
/// others become optional.
pub fn mark(incoming: &[Column], plan: &[Selector], target: &mut [Column]) {
    let scope = Some(incoming.iter().map(Nullness::of).collect());
    for (selector, column) in plan.iter().zip(target) {
        mark_column(Some(&nullness(&scope, selector)), column);
    }
}

fn mark_column(given: Option<&Nullness>, column: &mut Column) {
    column.required = given.is_none_or(|given| given.mark != Mark::Optional);
    let inside = given.and_then(|given| given.inside.as_ref());
    let part = |at: usize| inside.and_then(|inside| inside.get(at));
    match &mut column.type_ {
        Type::Leaf(_) => (),
        Type::Struct(columns) => {
            for (at, column) in columns.iter_mut().enumerate() {
                mark_column(part(at), column);
            }
        }
        Type::List(element) | Type::Array(_, element) => mark_column(part(0), element),
    }
}

/// Whether no optional field meets a required one.
pub fn meets(incoming: &[Column], target: &[Column], plan: &[Selector]) -> bool {
    if !has_required(target) {
        return true;
    }
    let scope = Some(incoming.iter().map(Nullness::of).collect());
    let mut pairs = plan.iter().zip(target);
    pairs.all(|(selector, column)| nullness(&scope, selector).does_for(column))
}
