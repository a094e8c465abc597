//! The first column in which what a plan makes and the target differ.

use crate::form::{Column, Type};
use crate::read::Step;
use crate::text::{name_text, type_text};

/// The path to the first difference, and how the two differ there.
pub fn difference(made: &[Column], target: &[Column]) -> Option<(Vec<Step>, String)> {
    let mut path = Vec::new();
    let how = rows(made, target, "column", &mut path)?;
    Some((path, how))
}

fn rows(made: &[Column], target: &[Column], what: &str, path: &mut Vec<Step>) -> Option<String> {
    for (index, (made, target)) in made.iter().zip(target).enumerate() {
        path.push(Step::Column(index, Some(target.name.clone())));
        if made.name != target.name {
            return Some(format!("the plan makes the name {}", name_text(&made.name)));
        }
        if let Some(how) = types(&made.of, &target.of, path) {
            return Some(how);
        }
        path.pop();
    }
    let (made, wanted) = (made.len(), target.len());
    (made != wanted).then(|| {
        format!(
            "the plan makes {made} {what}{}, not {wanted}",
            if made == 1 { "" } else { "s" }
        )
    })
}

fn types(made: &Type, target: &Type, path: &mut Vec<Step>) -> Option<String> {
    match (made, target) {
        (Type::Struct(made), Type::Struct(target)) => rows(made, target, "field", path),
        (Type::List(made), Type::List(target)) => elements(made, target, path),
        (Type::Array(width, made), Type::Array(wanted, target)) if width == wanted => {
            elements(made, target, path)
        }
        _ => (!made.equals(target)).then(|| {
            format!(
                "the plan makes {}, not {}",
                type_text(made),
                type_text(target)
            )
        }),
    }
}

fn elements(made: &Column, target: &Column, path: &mut Vec<Step>) -> Option<String> {
    path.push(Step::Element(None));
    let how = types(&made.of, &target.of, path);
    if how.is_none() {
        path.pop();
    }
    how
}
