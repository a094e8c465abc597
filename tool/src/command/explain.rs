//! `explain`: refusals in words.

use crate::args::{Args, Command, JSON};
use crate::failure::Failure;
use crate::files;
use crate::json::Json;
use crate::lists::{self, Listed};
use crate::near::hint;
use crate::wrap::wrapped;

pub const COMMAND: Command = Command {
    name: "explain",
    operands: "[REFUSAL..]",
    about: "Says what a refusal means, what causes it and what to do about it.",
    detail: "A REFUSAL is a number, as 24, or a name, as TYPE_MISMATCH. Without one, all refusals are listed.",
    choices: &[&[JSON]],
    least: 0,
    most: usize::MAX,
    run,
};

fn run(args: &Args) -> Result<(), Failure> {
    let wanted: Vec<&Listed> = match args.operands.is_empty() {
        true => lists::refusals().iter().collect(),
        false => args
            .operands
            .iter()
            .map(|word| find(&word.to_string_lossy()))
            .collect::<Result<_, _>>()?,
    };
    if args.json() {
        let json = Json::List(wanted.iter().map(|listed| json(listed)).collect());
        return files::put_text(&format!("{json}\n"), None);
    }
    let texts: Vec<String> = match args.operands.is_empty() {
        true => wanted
            .iter()
            .map(|listed| {
                format!(
                    "{:>3}  {:20} {}\n",
                    listed.number, listed.name, listed.words
                )
            })
            .collect(),
        false => wanted.iter().map(|listed| text(listed)).collect(),
    };
    let between = if args.operands.is_empty() { "" } else { "\n" };
    files::put_text(&texts.join(between), None)
}

fn find(word: &str) -> Result<&'static Listed, Failure> {
    let number = word.parse().ok().and_then(lists::refusal);
    let name = word.to_uppercase().replace('-', "_");
    let named = || lists::refusals().iter().find(|listed| listed.name == name);
    number.or_else(named).ok_or_else(|| {
        let known: Vec<&str> = lists::refusals()
            .iter()
            .map(|listed| listed.name.as_str())
            .collect();
        Failure::Usage(format!(
            "there is no refusal `{word}`{}",
            hint(&name, &known)
        ))
    })
}

fn text(listed: &Listed) -> String {
    let Listed {
        number,
        name,
        words,
        ..
    } = listed;
    let mut text = format!("{number} {name}: {words}\n");
    let table = listed.table.as_ref().map(|table| ("of a table", table));
    let parts = [
        ("cause", &listed.cause),
        ("what to do", &listed.what_to_do),
        ("calls", &listed.calls),
    ];
    let place = (listed.place != "none").then_some(("place", &listed.counts));
    for (head, part) in table.into_iter().chain(parts).chain(place) {
        text.push_str(&wrapped(&format!("{head}: {part}"), 2, 2));
    }
    text
}

fn json(listed: &Listed) -> Json {
    let calls = listed.calls.split(' ').map(Json::from).collect();
    Json::Object(vec![
        ("number", listed.number.into()),
        ("name", listed.name.as_str().into()),
        ("words", listed.words.as_str().into()),
        ("table", listed.table.as_deref().into()),
        ("place", listed.place.as_str().into()),
        ("section", listed.section.as_str().into()),
        ("calls", Json::List(calls)),
        ("cause", listed.cause.as_str().into()),
        ("do", listed.what_to_do.as_str().into()),
    ])
}
