//! What becomes of each column: kept, converted, renamed, filled, dropped. Read off plans that the library built.

use crate::follow::{Way, dropped, inner_scope};
use crate::form::{Cast, Column, Plan, Selector, Type, Value};
use crate::json::{Json, cast_json, value_json};
use crate::path::way_text;
use crate::read::{Step, path_text};
use crate::terminal::{Paint, Style};
use crate::text::{brief_type, type_text, value_text};
use crate::told::Told;

/// What becomes of a target column or field.
#[derive(Clone, Debug)]
pub enum Change {
    Kept,
    Converted(Cast),
    /// Only the name is another.
    Renamed,
    /// A struct, list or array whose inside is changed.
    Mapped,
    /// A default, or null where there is none.
    Filled(Value),
    Refused(Box<Told>),
}

impl Change {
    fn word(&self) -> &'static str {
        match self {
            Change::Kept => "kept",
            Change::Converted(_) => "converted",
            Change::Renamed => "renamed",
            Change::Mapped => "mapped",
            Change::Filled(Value::Null) => "null",
            Change::Filled(_) => "default",
            Change::Refused(_) => "refused",
        }
    }

    fn mark(&self) -> (char, Style) {
        match self {
            Change::Kept => ('=', Style::Same),
            Change::Converted(_) | Change::Mapped => ('~', Style::Changed),
            Change::Renamed => ('>', Style::Named),
            Change::Filled(_) => ('+', Style::Filled),
            Change::Refused(_) => ('!', Style::Bad),
        }
    }
}

/// A row: a target column or field, and where it comes from.
#[derive(Clone, Debug)]
pub struct Row {
    pub target: String,
    pub to: Type,
    pub change: Change,
    /// The incoming column's path and type.
    pub from: Option<(String, Type)>,
    pub renamed: bool,
}

/// The rows of a target column, its fields included, and what is dropped.
#[derive(Clone, Debug, Default)]
pub struct Diff {
    pub rows: Vec<Row>,
    pub dropped: Vec<String>,
}

/// What a plan does with the incoming columns.
pub fn of_plan(plan: &Plan, incoming: &[Column], target: &[Column]) -> Diff {
    let mut rows = Vec::new();
    for (index, (selector, column)) in plan.selectors.iter().zip(target).enumerate() {
        of_column(index, selector, column, incoming, &mut rows);
    }
    Diff {
        rows,
        dropped: dropped_text(&plan.selectors, incoming),
    }
}

pub fn dropped_text(selectors: &[Selector], incoming: &[Column]) -> Vec<String> {
    dropped(selectors, incoming)
        .iter()
        .map(|way| way_text(way, incoming))
        .collect()
}

/// The rows of one target column.
pub fn of_column(
    index: usize,
    selector: &Selector,
    column: &Column,
    incoming: &[Column],
    rows: &mut Vec<Row>,
) {
    let mut path = vec![Step::Column(index, Some(column.name.clone()))];
    let scope = Scope {
        columns: incoming.to_vec(),
        above: Some(Vec::new()),
        all: incoming,
    };
    walk(selector, column, &scope, &mut path, rows);
}

/// What is around a selector: the columns, and the way to what they stand in, where that is known.
struct Scope<'a> {
    columns: Vec<Column>,
    above: Option<Way>,
    all: &'a [Column],
}

fn walk(
    selector: &Selector,
    column: &Column,
    scope: &Scope,
    path: &mut Vec<Step>,
    rows: &mut Vec<Row>,
) {
    let origin = position_of(selector);
    let from = origin.and_then(|position| {
        let way = [scope.above.as_deref()?, &[position]].concat();
        Some((
            way_text(&way, scope.all),
            scope.columns.get(position)?.of.clone(),
        ))
    });
    let name = origin
        .and_then(|position| scope.columns.get(position))
        .map(|column| &column.name);
    let element = matches!(path.last(), Some(Step::Element(_)));
    let renamed = !element && name.is_some_and(|name| *name != column.name);
    let change = change_of(selector, renamed);
    let mapped = matches!(change, Change::Mapped);
    let (target, to) = (path_text(path), column.of.clone());
    rows.push(Row {
        target,
        to,
        change,
        from,
        renamed,
    });
    if mapped {
        walk_inside(selector, column, scope, path, rows);
    }
}

fn walk_inside(
    selector: &Selector,
    column: &Column,
    scope: &Scope,
    path: &mut Vec<Step>,
    rows: &mut Vec<Row>,
) {
    let Some(mapping) = mapping_of(selector) else {
        return;
    };
    let above = scope
        .above
        .as_deref()
        .zip(mapping.input().and_then(position_of));
    let above = above.map(|(above, position)| [above, &[position]].concat());
    let inner = Scope {
        columns: inner_scope(mapping, &scope.columns).unwrap_or_default(),
        above,
        all: scope.all,
    };
    for (index, (member, field)) in mapping.members().iter().zip(column.of.inside()).enumerate() {
        path.push(match column.of {
            Type::Struct(_) => Step::Column(index, Some(field.name.clone())),
            _ => Step::Element(None),
        });
        walk(member, field, &inner, path, rows);
        path.pop();
    }
}

/// The incoming position at the end of a chain of transforms.
fn position_of(selector: &Selector) -> Option<usize> {
    match selector {
        Selector::Position(position) => Some(usize::from(*position)),
        selector => selector.input().and_then(position_of),
    }
}

/// The outermost mapping in a chain of transforms.
fn mapping_of(selector: &Selector) -> Option<&Selector> {
    match selector {
        Selector::Struct(..) | Selector::List(..) | Selector::Array(..) => Some(selector),
        selector => selector.input().and_then(mapping_of),
    }
}

fn change_of(selector: &Selector, renamed: bool) -> Change {
    match selector {
        Selector::Position(_) if renamed => Change::Renamed,
        Selector::Position(_) => Change::Kept,
        Selector::Constant(_, _, value) => Change::Filled(value.clone()),
        Selector::Cast(_, _, cast) => Change::Converted(*cast),
        Selector::Rename(input, _) => change_of(input, renamed),
        Selector::Struct(..) | Selector::List(..) | Selector::Array(..) => Change::Mapped,
    }
}

impl Row {
    /// Of a struct whose fields have rows of their own, no more than that it is one.
    fn type_text(&self) -> String {
        match (&self.change, &self.to) {
            (Change::Mapped, Type::Struct(_)) => "struct".to_string(),
            (_, to) => brief_type(to),
        }
    }

    fn how(&self) -> String {
        let from = |text: &str| match (&self.from, self.renamed) {
            (Some((path, _)), true) => format!("{text}, renamed from {path}"),
            _ => text.to_string(),
        };
        match (&self.change, &self.from) {
            (Change::Converted(cast), Some((_, of))) => from(&format!(
                "converted from {}, {}",
                type_text(of),
                cast.name()
            )),
            (Change::Converted(cast), None) => format!("converted, {}", cast.name()),
            (Change::Renamed, Some((path, _))) => format!("renamed from {path}"),
            (Change::Filled(Value::Null), _) => "filled with null".to_string(),
            (Change::Filled(value), _) => format!("filled with {}", value_text(value, &self.to)),
            (Change::Refused(told), _) => {
                format!("refused {}: {}", told.refusal.number(), told.words())
            }
            (Change::Mapped, _) => from("its inside is changed"),
            (change, _) => change.word().to_string(),
        }
    }

    fn json(&self) -> Json {
        let mut fields = vec![
            ("target", self.target.as_str().into()),
            ("type", type_text(&self.to).into()),
            ("change", self.change.word().into()),
            (
                "from",
                self.from.as_ref().map(|(path, _)| path.as_str()).into(),
            ),
            (
                "from_type",
                self.from.as_ref().map(|(_, of)| type_text(of)).into(),
            ),
            ("renamed", Json::Truth(self.renamed)),
        ];
        match &self.change {
            Change::Converted(cast) => fields.push(("option", cast_json(*cast))),
            Change::Filled(value) => fields.push(("value", value_json(value, &self.to))),
            Change::Refused(told) => fields.push(("refusal", told.json())),
            _ => {}
        }
        Json::Object(fields)
    }
}

impl Diff {
    pub fn text(&self, paint: Paint) -> String {
        let of = |text: &str| text.chars().count();
        let width = self
            .rows
            .iter()
            .map(|row| of(&row.target))
            .chain(self.dropped.iter().map(|path| of(path)));
        let width = width.max().unwrap_or(0).min(40);
        let types = self
            .rows
            .iter()
            .map(|row| of(&row.type_text()))
            .filter(|width| *width <= 40)
            .max()
            .unwrap_or(0);
        let mut text = String::new();
        for row in &self.rows {
            let (mark, style) = row.change.mark();
            let line = format!(
                "{mark} {:width$}  {:types$}  {}",
                row.target,
                row.type_text(),
                row.how()
            );
            text.push_str(&paint.put(style, &line));
            text.push('\n');
        }
        for path in &self.dropped {
            let line = format!("- {path:width$}  {:types$}  dropped", "");
            text.push_str(&paint.put(Style::Gone, &line));
            text.push('\n');
        }
        text
    }

    pub fn json(&self) -> Json {
        let dropped = self
            .dropped
            .iter()
            .map(|path| path.as_str().into())
            .collect();
        Json::Object(vec![
            ("kind", "diff".into()),
            (
                "columns",
                Json::List(self.rows.iter().map(Row::json).collect()),
            ),
            ("dropped", Json::List(dropped)),
        ])
    }

    /// The first row that is refused.
    pub fn refused(&self) -> Option<&Told> {
        self.rows.iter().find_map(|row| match &row.change {
            Change::Refused(told) => Some(&**told),
            _ => None,
        })
    }
}
