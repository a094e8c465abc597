//! The check: the column that each selector gives, then whether these are the target's.

use crate::form::{Column, DEPTH_LIMIT, Fault, LAYOUT_LIMIT, Layout, Leaf, Type};
use crate::nullness;
use crate::rules::{CastOption, cast_option};
use crate::selector::Selector;
use std::rc::Rc;

/// A type, ids and element names dropped. Parts are shared: a mapping over another would else copy what it takes.
#[derive(Clone)]
enum DataType<'a> {
    Leaf(&'a Leaf),
    Nested(Rc<Nested<'a>>),
}

struct Nested<'a> {
    shape: Shape<'a>,
    depth: u32,
    /// Of the version 1 form, in bytes.
    length: usize,
}

enum Shape<'a> {
    Struct(Vec<Field<'a>>),
    List(DataType<'a>),
    Array(u32, DataType<'a>),
}

/// What a selector gives.
#[derive(Clone)]
struct Field<'a> {
    name: &'a [u8],
    type_: DataType<'a>,
}

impl<'a> DataType<'a> {
    fn of(type_: &'a Type) -> DataType<'a> {
        match type_ {
            Type::Leaf(leaf) => DataType::Leaf(leaf),
            Type::Struct(columns) => DataType::structure(columns.iter().map(Field::of).collect()),
            Type::List(element) => DataType::list(DataType::of(&element.type_)),
            Type::Array(width, element) => DataType::array(*width, DataType::of(&element.type_)),
        }
    }

    fn structure(fields: Vec<Field<'a>>) -> DataType<'a> {
        let deepest = fields.iter().map(|field| field.type_.depth()).max();
        let length = |field: &Field| 1 + field.name.len() + field.type_.length();
        let length = 3 + fields.iter().map(length).sum::<usize>();
        DataType::nested(Shape::Struct(fields), deepest.unwrap_or(0), length)
    }

    fn list(element: DataType<'a>) -> DataType<'a> {
        let (depth, length) = (element.depth(), element.length());
        DataType::nested(Shape::List(element), depth, 1 + length)
    }

    fn array(width: u32, element: DataType<'a>) -> DataType<'a> {
        let (depth, length) = (element.depth(), element.length());
        DataType::nested(Shape::Array(width, element), depth, 5 + length)
    }

    /// Around parts of that depth.
    fn nested(shape: Shape<'a>, depth: u32, length: usize) -> DataType<'a> {
        DataType::Nested(Rc::new(Nested {
            shape,
            depth: 1 + depth,
            length,
        }))
    }

    fn depth(&self) -> u32 {
        match self {
            DataType::Leaf(_) => 1,
            DataType::Nested(nested) => nested.depth,
        }
    }

    fn length(&self) -> usize {
        match self {
            DataType::Leaf(Leaf::Plain(_)) => 1,
            DataType::Leaf(Leaf::Datetime { zone, .. }) => 3 + zone.len(),
            DataType::Leaf(Leaf::Decimal { .. }) => 3,
            DataType::Nested(nested) => nested.length,
        }
    }

    fn to_type(&self) -> Type {
        let element = |inner: &DataType| Box::new(Column::of(&[], inner.to_type()));
        match self {
            DataType::Leaf(leaf) => Type::Leaf((*leaf).clone()),
            DataType::Nested(nested) => match &nested.shape {
                Shape::Struct(fields) => Type::Struct(fields.iter().map(Field::column).collect()),
                Shape::List(inner) => Type::List(element(inner)),
                Shape::Array(width, inner) => Type::Array(*width, element(inner)),
            },
        }
    }

    /// Whether it is the type of a layout.
    fn is(&self, type_: &Type) -> bool {
        match (self, type_) {
            (DataType::Leaf(leaf), Type::Leaf(other)) => *leaf == other,
            (DataType::Nested(nested), type_) => match (&nested.shape, type_) {
                (Shape::Struct(fields), Type::Struct(columns)) => are(fields, columns),
                (Shape::List(inner), Type::List(element)) => inner.is(&element.type_),
                (Shape::Array(width, inner), Type::Array(other, element)) => {
                    width == other && inner.is(&element.type_)
                }
                _ => false,
            },
            _ => false,
        }
    }
}

impl<'a> Field<'a> {
    fn of(column: &'a Column) -> Field<'a> {
        Field {
            name: &column.name,
            type_: DataType::of(&column.type_),
        }
    }

    fn column(&self) -> Column {
        Column::of(self.name, self.type_.to_type())
    }
}

/// Names, types and count are those of a layout's columns.
fn are(fields: &[Field], columns: &[Column]) -> bool {
    let is = |(field, column): (&Field, &Column)| {
        field.name == column.name.as_slice() && field.type_.is(&column.type_)
    };
    fields.len() == columns.len() && fields.iter().zip(columns).all(is)
}

/// A cast passes if its leaf pair has that option, or null goes NonStrict to any other type.
fn cast_fits(from: &DataType, to: &Type, option: CastOption) -> bool {
    match (from, to) {
        (DataType::Leaf(from), Type::Leaf(to)) => cast_option(from, to) == Some(option),
        (DataType::Leaf(Leaf::Plain(0)), _) => option == CastOption::NonStrict,
        _ => false,
    }
}

/// A transform's result, unless it is deeper than 16 or over 16,384 bytes.
fn resulting<'a>(name: &'a [u8], type_: DataType<'a>) -> Result<Field<'a>, Fault> {
    if type_.depth() > DEPTH_LIMIT || type_.length() > LAYOUT_LIMIT {
        return Err(32);
    }
    Ok(Field { name, type_ })
}

/// What a selector gives over columns; 31 or 32.
fn field<'a>(scope: &[Field<'a>], selector: &'a Selector<'a>) -> Result<Field<'a>, Fault> {
    match selector {
        Selector::Position(at) => scope.get(usize::from(*at)).cloned().ok_or(31),
        Selector::Constant { name, type_, .. } => Ok(Field {
            name,
            type_: DataType::of(type_),
        }),
        Selector::Cast {
            input,
            type_,
            option,
        } => {
            let input = field(scope, input)?;
            if !cast_fits(&input.type_, type_, *option) {
                return Err(32);
            }
            resulting(input.name, DataType::of(type_))
        }
        Selector::Rename { input, name } => resulting(name, field(scope, input)?.type_),
        Selector::StructMapping { input, fields } => {
            let input = field(scope, input)?;
            let Some(Shape::Struct(inner)) = shape(&input.type_) else {
                return Err(32);
            };
            let fields: Result<_, _> = fields.iter().map(|one| field(inner, one)).collect();
            resulting(input.name, DataType::structure(fields?))
        }
        Selector::ListMapping { input, element } => {
            let input = field(scope, input)?;
            let Some(Shape::List(inner)) = shape(&input.type_) else {
                return Err(32);
            };
            resulting(input.name, DataType::list(mapped(inner, element)?))
        }
        Selector::ArrayMapping { input, element } => {
            let input = field(scope, input)?;
            let Some(Shape::Array(width, inner)) = shape(&input.type_) else {
                return Err(32);
            };
            resulting(input.name, DataType::array(*width, mapped(inner, element)?))
        }
    }
}

fn shape<'t, 'a>(type_: &'t DataType<'a>) -> Option<&'t Shape<'a>> {
    match type_ {
        DataType::Leaf(_) => None,
        DataType::Nested(nested) => Some(&nested.shape),
    }
}

/// An element's type after its selector. Position 0 is the element, and names have no effect.
fn mapped<'a>(inner: &DataType<'a>, element: &'a Selector<'a>) -> Result<DataType<'a>, Fault> {
    let scope = [Field {
        name: &[],
        type_: inner.clone(),
    }];
    Ok(field(&scope, element)?.type_)
}

/// What the top selectors give: 31 or 32 with the selector's number.
fn fields<'a>(
    incoming: &'a [Column],
    plan: &'a [Selector<'a>],
) -> Result<Vec<Field<'a>>, (Fault, usize)> {
    let scope: Vec<Field> = incoming.iter().map(Field::of).collect();
    let one = |(place, selector)| field(&scope, selector).map_err(|number| (number, place));
    plan.iter().enumerate().map(one).collect()
}

/// 31 and 32, then 33, then 55.
pub fn check(incoming: &Layout, target: &Layout, plan: &[Selector]) -> Result<(), (Fault, usize)> {
    if !are(&fields(&incoming.columns, plan)?, &target.columns) {
        return Err((33, 0));
    }
    match nullness::meets(&incoming.columns, &target.columns, plan) {
        true => Ok(()),
        false => Err((55, 0)),
    }
}

/// The columns that a plan leads to, without ids and marks.
pub fn columns(incoming: &[Column], plan: &[Selector]) -> Result<Vec<Column>, (Fault, usize)> {
    Ok(fields(incoming, plan)?.iter().map(Field::column).collect())
}
