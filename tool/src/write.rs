//! Trees to bytes. Nothing is tested but that a length or count fits its bytes: the library says whether it takes them.

use crate::form::{self, Column, Default, Layout, Leaf, Plan, Selector, Table, Type, Value};

pub fn layout_bytes(layout: &Layout) -> Result<Vec<u8>, String> {
    let mut out = Out::start(b"LAY", layout.version);
    out.version = layout.version;
    out.columns(&layout.columns)?;
    Ok(out.bytes)
}

pub fn table_bytes(table: &Table) -> Result<Vec<u8>, String> {
    let mut out = Out::start(b"DEF", table.version);
    out.count(table.entries.len(), "entries")?;
    for entry in &table.entries {
        if form::owned(table.version) {
            out.bytes.extend(entry.owner.unwrap_or(0).to_le_bytes());
        }
        out.bytes.extend(entry.id.to_le_bytes());
        match &entry.default {
            Default::Initial(leaf, value) => {
                out.bytes.push(0);
                out.leaf(leaf)?;
                out.leaf_value(leaf, value)?;
            }
            Default::Loaded(leaf, values) => {
                out.bytes.extend([1, 0]);
                out.leaf(leaf)?;
                out.count(values.len(), "values")?;
                for value in values {
                    out.leaf_value(leaf, value)?;
                }
            }
            Default::Failed => out.bytes.extend([1, 1]),
        }
    }
    Ok(out.bytes)
}

pub fn record_bytes(values: &[Value], layout: &Layout) -> Result<Vec<u8>, String> {
    let mut out = Out::default();
    out.row(values, &layout.columns)?;
    Ok(out.bytes)
}

pub fn plan_bytes(plan: &Plan) -> Result<Vec<u8>, String> {
    let mut out = Out::start(b"PLN", plan.version);
    out.selectors(&plan.selectors)?;
    Ok(out.bytes)
}

#[derive(Default)]
struct Out {
    bytes: Vec<u8>,
    /// Of the layout; types of plans have none, and are written as those of version 1.
    version: u16,
}

impl Out {
    fn start(mark: &[u8], version: u16) -> Out {
        let mut out = Out::default();
        out.bytes.extend(mark);
        out.bytes.extend(version.to_le_bytes());
        out
    }

    fn count(&mut self, count: usize, what: &str) -> Result<(), String> {
        let count = u16::try_from(count).map_err(|_| format!("more than 65535 {what}"))?;
        self.bytes.extend(count.to_le_bytes());
        Ok(())
    }

    /// A name or a zone.
    fn text(&mut self, text: &[u8]) -> Result<(), String> {
        let length = text.len();
        let length =
            u8::try_from(length).map_err(|_| format!("a name or zone of {length} bytes"))?;
        self.bytes.push(length);
        self.bytes.extend(text);
        Ok(())
    }

    fn columns(&mut self, columns: &[Column]) -> Result<(), String> {
        self.count(columns.len(), "columns or fields")?;
        columns.iter().try_for_each(|column| self.column(column))
    }

    fn column(&mut self, column: &Column) -> Result<(), String> {
        self.text(&column.name)?;
        if form::by_number(self.version) {
            self.bytes.extend(column.id.to_le_bytes());
        }
        if form::marked(self.version) {
            self.bytes.push(u8::from(column.required));
        }
        self.of(&column.of)
    }

    fn of(&mut self, of: &Type) -> Result<(), String> {
        match of {
            Type::Leaf(leaf) => self.leaf(leaf),
            Type::Struct(fields) => {
                self.bytes.push(form::STRUCT);
                self.columns(fields)
            }
            Type::List(element) => {
                self.bytes.push(form::LIST);
                self.element(element)
            }
            Type::Array(width, element) => {
                self.bytes.push(form::ARRAY);
                self.bytes.extend(width.to_le_bytes());
                self.element(element)
            }
        }
    }

    fn element(&mut self, element: &Column) -> Result<(), String> {
        match form::by_number(self.version) {
            true => self.column(element),
            false => self.of(&element.of),
        }
    }

    fn leaf(&mut self, leaf: &Leaf) -> Result<(), String> {
        self.bytes.push(leaf.code());
        match leaf {
            Leaf::Datetime { unit, zone } => {
                self.bytes.push(*unit as u8);
                self.text(zone)?;
            }
            Leaf::Decimal { precision, scale } => self.bytes.extend([*precision, *scale]),
            _ => {}
        }
        Ok(())
    }

    fn row(&mut self, values: &[Value], columns: &[Column]) -> Result<(), String> {
        let mut row = values.iter().zip(columns);
        row.try_for_each(|(value, column)| self.value(value, &column.of))
    }

    fn value(&mut self, value: &Value, of: &Type) -> Result<(), String> {
        if let Type::Leaf(leaf) = of {
            return self.leaf_value(leaf, value);
        }
        let Value::Row(row) = value else {
            self.bytes.push(0);
            return Ok(());
        };
        self.bytes.push(1);
        match of {
            Type::Struct(fields) => self.row(row, fields),
            Type::List(_) => {
                self.count(row.len(), "elements")?;
                self.elements(row, of)
            }
            _ => self.elements(row, of),
        }
    }

    fn elements(&mut self, row: &[Value], of: &Type) -> Result<(), String> {
        row.iter()
            .try_for_each(|value| self.value(value, &of.inside()[0].of))
    }

    fn leaf_value(&mut self, leaf: &Leaf, value: &Value) -> Result<(), String> {
        self.bytes.push(u8::from(*value != Value::Null));
        let bits = match value {
            Value::Null | Value::Row(_) => return Ok(()),
            Value::Boolean(value) => u64::from(*value),
            Value::Number(number) => *number as u64,
            Value::Bits(bits) => *bits,
            Value::Text(text) => {
                self.count(text.len(), "bytes of a text")?;
                self.bytes.extend(text);
                return Ok(());
            }
        };
        self.bytes
            .extend(&bits.to_le_bytes()[..leaf.width().unwrap_or(0)]);
        Ok(())
    }

    fn selectors(&mut self, selectors: &[Selector]) -> Result<(), String> {
        self.count(selectors.len(), "selectors")?;
        selectors
            .iter()
            .try_for_each(|selector| self.selector(selector))
    }

    fn selector(&mut self, selector: &Selector) -> Result<(), String> {
        self.bytes.push(match selector {
            Selector::Position(_) => 0,
            Selector::Constant(..) => 1,
            Selector::Cast(..) => 2,
            Selector::Rename(..) => 3,
            Selector::Struct(..) => 4,
            Selector::List(..) => 5,
            Selector::Array(..) => 6,
        });
        if let Some(input) = selector.input() {
            self.selector(input)?;
        }
        match selector {
            Selector::Position(position) => self.bytes.extend(position.to_le_bytes()),
            Selector::Constant(name, of, value) => {
                self.text(name)?;
                self.of(of)?;
                self.value(value, of)?;
            }
            Selector::Cast(_, of, cast) => {
                self.of(of)?;
                self.bytes.push(*cast as u8);
            }
            Selector::Rename(_, name) => self.text(name)?,
            Selector::Struct(_, fields) => self.selectors(fields)?,
            Selector::List(_, element) | Selector::Array(_, element) => self.selector(element)?,
        }
        Ok(())
    }
}
