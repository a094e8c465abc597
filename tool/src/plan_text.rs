//! A plan as text: of each selector what it makes, from what, and how; what the plan drops; what its words mean.

use crate::follow::{dropped, inner_scope, made};
use crate::form::{Cast, Column, Plan, Selector};
use crate::path::way_text;
use crate::terminal::{Paint, Style};
use crate::text::{brief_type, name_text, value_text};
use crate::wrap::wrapped;

/// What is known beside a plan.
#[derive(Clone, Copy, Default)]
pub struct Beside<'a> {
    pub incoming: Option<&'a [Column]>,
    pub target: Option<&'a [Column]>,
    /// Whether the check passes between the two layouts; none without them.
    pub passes: Option<bool>,
    /// The top selector that the check refuses.
    pub refused: Option<usize>,
}

pub fn plan_text(plan: &Plan, beside: Beside, paint: Paint) -> String {
    let count = plan.selectors.len();
    let (version, ending) = (plan.version, if count == 1 { "" } else { "s" });
    let check = match beside.passes {
        None => "",
        Some(true) => ", passes the check",
        Some(false) => ", is refused by the check",
    };
    let mut text = format!("plan version {version}, {count} selector{ending}{check}\n");
    for (index, selector) in plan.selectors.iter().enumerate() {
        let column = beside.target.and_then(|target| target.get(index));
        let (mark, style) = match beside.refused == Some(index) {
            true => (">>", Style::Bad),
            false => ("  ", Style::Plain),
        };
        let scope = Scope {
            columns: beside.incoming,
            element: false,
        };
        let lines = selector_lines(index, selector, column, scope, 0);
        for (number, line) in lines.iter().enumerate() {
            let mark = if number == 0 { mark } else { "  " };
            text.push_str(&paint.put(style, &format!("{mark} {line}")));
            text.push('\n');
        }
    }
    if let Some(incoming) = beside.incoming {
        for way in dropped(&plan.selectors, incoming) {
            text.push_str(&paint.put(
                Style::Gone,
                &format!("dropped: {}", way_text(&way, incoming)),
            ));
            text.push('\n');
        }
    }
    text.push_str(&legend(plan));
    text
}

/// What the options of the plan's casts mean.
fn legend(plan: &Plan) -> String {
    let used = |cast: &Cast| {
        plan.selectors
            .iter()
            .any(|selector| has_cast(selector, *cast))
    };
    let lines = Cast::ALL.into_iter().filter(used);
    lines
        .map(|cast| wrapped(&format!("{}: {}", cast.name(), cast.meaning()), 0, 2))
        .collect()
}

fn has_cast(selector: &Selector, wanted: Cast) -> bool {
    let here = matches!(selector, Selector::Cast(_, _, cast) if *cast == wanted);
    let mut inside = selector.input().into_iter().chain(selector.members());
    here || inside.any(|selector| has_cast(selector, wanted))
}

/// What is around a selector: the columns, where they are known, or the element of a list or array.
#[derive(Clone, Copy)]
struct Scope<'a> {
    columns: Option<&'a [Column]>,
    element: bool,
}

impl Scope<'_> {
    /// A column or field; of an element the type alone, for its name has no effect.
    fn text(self, column: &Column) -> String {
        match self.element {
            true => brief_type(&column.of),
            false => format!("{}: {}", name_text(&column.name), brief_type(&column.of)),
        }
    }
}

/// A selector, and below it those inside a mapping.
fn selector_lines(
    index: usize,
    selector: &Selector,
    column: Option<&Column>,
    scope: Scope,
    depth: usize,
) -> Vec<String> {
    let made = scope.columns.and_then(|columns| made(selector, columns));
    let makes = column.or(made.as_ref()).map_or(String::new(), |column| {
        format!("{} <- ", scope.text(column))
    });
    let indent = "    ".repeat(depth);
    let label = if scope.element {
        "element".to_string()
    } else {
        format!("{index} ")
    };
    let mut lines = vec![format!(
        "{indent}{label} {makes}{}",
        selector_text(selector, scope)
    )];
    for mapping in mappings(selector) {
        let inner = scope
            .columns
            .map(|columns| inner_scope(mapping, columns).unwrap_or_default());
        let element = !matches!(mapping, Selector::Struct(..));
        let inner = Scope {
            columns: inner.as_deref(),
            element,
        };
        for (index, member) in mapping.members().iter().enumerate() {
            lines.extend(selector_lines(index, member, None, inner, depth + 1));
        }
    }
    lines
}

/// The mappings in a chain of transforms, the outermost first.
fn mappings(selector: &Selector) -> Vec<&Selector> {
    let mut found = Vec::new();
    let mut next = Some(selector);
    while let Some(selector) = next {
        if let Selector::Struct(..) | Selector::List(..) | Selector::Array(..) = selector {
            found.push(selector);
        }
        next = selector.input();
    }
    found
}

/// A selector among columns, on one line.
pub fn described(selector: &Selector, columns: &[Column]) -> String {
    let (columns, element) = (Some(columns), false);
    selector_text(selector, Scope { columns, element })
}

/// A chain of transforms on one line.
fn selector_text(selector: &Selector, scope: Scope) -> String {
    let of = |input: &Selector| selector_text(input, scope);
    match selector {
        Selector::Position(position) => position_text(*position, scope),
        Selector::Constant(name, of, value) => {
            let column = Column::named(name.clone(), of.clone());
            format!(
                "constant {} ({})",
                value_text(value, of),
                scope.text(&column)
            )
        }
        Selector::Cast(input, to, cast) => {
            format!(
                "cast to {}, {}, of {}",
                brief_type(to),
                cast.name(),
                of(input)
            )
        }
        Selector::Rename(input, name) => format!("rename to {} of {}", name_text(name), of(input)),
        Selector::Struct(input, _) => format!("struct mapping of {}", of(input)),
        Selector::List(input, _) => format!("list mapping of {}", of(input)),
        Selector::Array(input, _) => format!("array mapping of {}", of(input)),
    }
}

fn position_text(position: u16, scope: Scope) -> String {
    let place = match scope.element && position == 0 {
        true => "it".to_string(),
        false => format!("position {position}"),
    };
    match scope
        .columns
        .map(|columns| columns.get(usize::from(position)))
    {
        None => place,
        Some(None) => format!("{place}, which is not there"),
        Some(Some(column)) => format!("{place} ({})", scope.text(column)),
    }
}
