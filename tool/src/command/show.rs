//! `show`: bytes as text.

use crate::args::{Args, COLOR, Command, JSON, OUTPUT};
use crate::diff::dropped_text;
use crate::failure::Failure;
use crate::files::{self, Input};
use crate::form::{self, Layout};
use crate::json::{self, Json};
use crate::plan_text::{Beside, plan_text};
use crate::read::{self, File};
use crate::text::{self, Kind};
use crate::told::{Case, Told, tell};
use column_selector::{Incoming, Plan, Refusal, Target};

pub const COMMAND: Command = Command {
    name: "show",
    operands: "FILE [LAYOUT [LAYOUT]]",
    about: "Writes a layout, a table of defaults, a plan or a record as text.",
    detail: "What FILE is, its first bytes say; a record needs its LAYOUT. Layouts, tables and records are written in the text form\n\
             of docs/TEXT.md, which `layout`, `defaults` and `record` read back to the same bytes. A plan is written with what\n\
             each selector does; with the incoming LAYOUT also from which columns, and what is dropped; with the target LAYOUT\n\
             too the plan is checked, and a selector that is refused is marked with `>>`. FILE and LAYOUT may be texts.",
    choices: &[&[OUTPUT, JSON, COLOR]],
    least: 1,
    most: 3,
    run,
};

fn run(args: &Args) -> Result<(), Failure> {
    let input = files::read_file(args.operand(0).unwrap_or_default())?;
    let layouts = args
        .operands
        .iter()
        .skip(1)
        .map(|path| files::load(path, Kind::Layout, None));
    let layouts: Vec<Input> = layouts.collect::<Result<_, _>>()?;
    let kind = kind(&input, layouts.len())?;
    match kind {
        File::Layout => show_layout(args, input),
        File::Table => show_table(args, input),
        File::Plan => show_plan(args, &input, &layouts),
        File::Record => show_record(args, input, &layouts[0]),
    }
}

/// What a file is, and whether it has the layouts that it needs.
fn kind(input: &Input, layouts: usize) -> Result<File, Failure> {
    let marked = [File::Layout, File::Table, File::Plan]
        .into_iter()
        .find(|kind| input.bytes.starts_with(kind.mark()));
    let kind = match text::kind_of(&input.bytes) {
        Some(Kind::Layout) => File::Layout,
        Some(Kind::Defaults) => File::Table,
        Some(Kind::Record) => File::Record,
        None => marked.unwrap_or(File::Record),
    };
    let allowed = match kind {
        File::Layout | File::Table => 0..=0,
        File::Plan => 0..=2,
        File::Record => 1..=1,
    };
    if allowed.contains(&layouts) {
        return Ok(kind);
    }
    let (name, what) = (&input.name, kind.name());
    let takes = ["no layout", "one layout", "two layouts"][*allowed.end()];
    Err(Failure::Usage(match (kind, layouts) {
        (File::Record, 0) if !matches!(input.bytes.first(), Some(0 | 1)) => format!(
            "show: {name}: it begins with no mark, LAY, DEF or PLN, and is no record, which begins with 0 or 1"
        ),
        (File::Record, 0) => {
            format!("show: {name}: a {what} needs its layout: selector show RECORD LAYOUT")
        }
        _ => format!("show: {name}: a {what} takes {takes}, not {layouts}"),
    }))
}

fn put(args: &Args, text: &str, json: Json) -> Result<(), Failure> {
    match args.json() {
        true => files::put_text(&format!("{json}\n"), args.output()),
        false => files::put_text(text, args.output()),
    }
}

fn show_layout(args: &Args, input: Input) -> Result<(), Failure> {
    let layout = files::layout_tree(&files::made(input, Kind::Layout, None)?)?;
    put(
        args,
        &text::layout_text(&layout),
        json::layout_json(&layout),
    )
}

fn show_table(args: &Args, input: Input) -> Result<(), Failure> {
    let input = files::made(input, Kind::Defaults, None)?;
    files::test_table(&input)?;
    let table = read::read_table(&input.bytes).map_err(|_| files::unread(&input))?;
    put(args, &text::table_text(&table), json::table_json(&table))
}

fn show_record(args: &Args, input: Input, layout: &Input) -> Result<(), Failure> {
    let tree = files::layout_tree(layout)?;
    let input = files::made(input, Kind::Record, Some(&tree))?;
    files::test_record(&input, layout, &tree)?;
    let values = read::read_record(&input.bytes, &tree).map_err(|_| files::unread(&input))?;
    put(
        args,
        &text::record_text(&values, &tree),
        json::record_json(&values, &tree),
    )
}

fn show_plan(args: &Args, input: &Input, layouts: &[Input]) -> Result<(), Failure> {
    let trees = layouts.iter().map(files::layout_tree);
    let trees: Vec<Layout> = trees.collect::<Result<_, _>>()?;
    let case = Case {
        incoming: layouts.first(),
        target: layouts.get(1),
        plan: Some(input),
        ..Case::default()
    };
    // Without both layouts the check has none to compare with, and says only whether the plan is one.
    let refusal = checked(input, layouts).err();
    let refusal = refusal.filter(|refusal| layouts.len() == 2 || refusal.number() == MALFORMED);
    let told = refusal.map(|refusal| tell(refusal, case));
    let plan = match (read::read_plan(&input.bytes), told.clone()) {
        (Ok(plan), _) => plan,
        (Err(_), Some(told)) => return Err(Failure::refused(told, false)),
        (Err(_), None) => return Err(files::unread(input)),
    };
    let columns = |index: usize| trees.get(index).map(|layout| layout.columns.as_slice());
    let beside = Beside {
        incoming: columns(0),
        target: columns(1),
        passes: (layouts.len() == 2).then_some(refusal.is_none()),
        refused: refusal
            .filter(|refusal| is_selector(*refusal))
            .map(|refusal| refusal.place as usize),
    };
    put(
        args,
        &plan_text(&plan, beside, args.paint()?),
        plan_json(&plan, beside, told.as_ref()),
    )?;
    match told {
        None => Ok(()),
        Some(told) => Err(Failure::refused(told, args.json())),
    }
}

fn plan_json(plan: &form::Plan, beside: Beside, told: Option<&Told>) -> Json {
    let mut fields = json::plan_json(plan);
    if let Some(incoming) = beside.incoming {
        let dropped = dropped_text(&plan.selectors, incoming).into_iter();
        fields.push(("dropped", Json::List(dropped.map(Json::from).collect())));
    }
    if let Some(passes) = beside.passes {
        fields.push(("passes", Json::Truth(passes)));
        fields.push(("refusal", told.map(Told::json).into()));
    }
    Json::Object(fields)
}

const MALFORMED: u32 = 30;

fn is_selector(refusal: Refusal) -> bool {
    crate::lists::refusal(refusal.number()).is_some_and(|listed| listed.place == "selector")
}

/// The check of a plan between its layouts, or between layouts without columns where it has none.
fn checked(plan: &Input, layouts: &[Input]) -> Result<(), Refusal> {
    let none = b"LAY\x01\x00\x00\x00".as_slice();
    let layout = |index: usize| {
        let bytes = layouts.get(index).map_or(none, |input| &input.bytes);
        column_selector::Layout::new(bytes)
    };
    Plan::new(&plan.bytes).check(Incoming(layout(0)), Target(layout(1)))
}
