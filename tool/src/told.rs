//! A refusal in words: what it means, where it comes from, and what to do about it.

use crate::files::Input;
use crate::find::{self, Build};
use crate::follow::{Way, made_row};
use crate::form::{Column, Layout};
use crate::json::Json;
use crate::lists::{self, Listed};
use crate::path::{column_at, way_text};
use crate::read::{self, Fault, File, path_text};
use crate::text::{Place, type_text};
use crate::wrap::wrapped;
use column_selector::{Reason, Refusal};

/// The files of a call, as far as it has them.
#[derive(Clone, Copy, Default)]
pub struct Case<'a> {
    pub incoming: Option<&'a Input>,
    pub target: Option<&'a Input>,
    pub defaults: Option<&'a Input>,
    pub plan: Option<&'a Input>,
    pub record: Option<&'a Input>,
    /// The other arguments of a build.
    pub build: Option<Build<'a>>,
}

/// A column that a refusal is about.
#[derive(Clone, Debug, PartialEq, Eq)]
pub struct About {
    pub file: String,
    pub path: String,
    pub of: String,
    required: bool,
}

#[derive(Clone, Debug)]
pub struct Told {
    pub refusal: Refusal,
    pub listed: Option<&'static Listed>,
    /// The file whose bytes are broken, where in its text that is, and at which bytes.
    pub file: Option<String>,
    pub place: Option<Place>,
    pub fault: Option<Fault>,
    pub target: Option<About>,
    pub incoming: Option<About>,
    pub note: Option<String>,
}

/// The refusal of a call, told with all that can be found about it.
pub fn tell(refusal: Refusal, case: Case) -> Told {
    let listed = lists::refusal(refusal.number());
    let mut told = Told {
        refusal,
        listed,
        file: None,
        place: None,
        fault: None,
        target: None,
        incoming: None,
        note: None,
    };
    if !told.find_fault(case) {
        told.find_place(case);
    }
    told
}

impl Told {
    /// What the refusal's place counts, by its short name.
    fn kind(&self) -> &'static str {
        self.listed.map_or("none", |listed| listed.place.as_str())
    }

    /// Finds the broken bytes; whether there are any.
    fn find_fault(&mut self, case: Case) -> bool {
        let found = self
            .broken(case)
            .into_iter()
            .flatten()
            .find_map(|(input, file)| {
                let fault = fault_of(input, file, case.incoming)?;
                (fault.number() == self.refusal.number()).then_some((input, fault))
            });
        let Some((input, fault)) = found else {
            return false;
        };
        self.file = Some(input.name.clone());
        let places = input.places.as_ref();
        self.place = places.and_then(|places| places.of(&fault.path));
        self.note = other_kind(&input.bytes, fault.file);
        self.fault = Some(fault);
        true
    }

    /// The files that the refusal may be about, and what each is.
    fn broken<'a>(&self, case: Case<'a>) -> Vec<Option<(&'a Input, File)>> {
        let of = |input: Option<&'a Input>, file| input.map(|input| (input, file));
        let [incoming, target] =
            [case.incoming, case.target].map(|layout| of(layout, File::Layout));
        let defaults = of(case.defaults, File::Table);
        match (self.refusal.number(), self.kind(), self.refusal.place) {
            (_, "input", 1) => vec![incoming],
            (_, "input", 2) => vec![target],
            (_, "input", _) => vec![defaults],
            (50, ..) => vec![incoming, target],
            (30, ..) => vec![of(case.plan, File::Plan)],
            _ => vec![of(case.record, File::Record)],
        }
    }

    /// Finds the column that the refusal is about.
    fn find_place(&mut self, case: Case) {
        let (Some(from), Some(to)) = (case.incoming, case.target) else {
            return;
        };
        let layouts = (read::read_layout(&from.bytes), read::read_layout(&to.bytes));
        let (Ok(incoming), Ok(target)) = layouts else {
            return;
        };
        match (self.refusal.number(), self.kind()) {
            (10, _) => {
                let (one, other) = (incoming.version, target.version);
                self.note = Some(format!(
                    "{} is of version {one}, {} of version {other}",
                    from.name, to.name
                ));
            }
            (_, "incoming") => {
                self.incoming = about(from, &vec![self.refusal.place as usize], &incoming.columns)
            }
            (_, "selector") => {
                self.target = about(to, &vec![self.refusal.place as usize], &target.columns);
                self.note = self.refused_selector(case, &incoming);
            }
            (33, _) => self.find_difference(case, &incoming, &target),
            (55, _) if case.plan.is_some() => self.find_optional(case, &target),
            (44 | 45, _) => {
                let way = self.run_way(case, &incoming, &target);
                self.target = way.and_then(|way| about(to, &way, &target.columns));
            }
            _ => {
                let spot = case
                    .build
                    .and_then(|build| build.spot(self.refusal, &incoming.columns, &target.columns));
                if let Some(spot) = spot {
                    self.target = about(to, &spot.target, &target.columns);
                    self.incoming = spot
                        .incoming
                        .and_then(|way| about(from, &way, &incoming.columns));
                }
                if let 54 | 55 = self.refusal.number() {
                    self.target.iter_mut().for_each(About::mark);
                    self.incoming.iter_mut().for_each(About::mark);
                }
            }
        }
    }

    fn refused_selector(&self, case: Case, incoming: &Layout) -> Option<String> {
        let plan = read::read_plan(&case.plan?.bytes).ok()?;
        let (path, what) = find::refused_selector(self.refusal, &plan, &incoming.columns)?;
        Some(format!("{}: {what}", path_text(&path)))
    }

    fn find_difference(&mut self, case: Case, incoming: &Layout, target: &Layout) {
        let plan = case.plan.and_then(|plan| read::read_plan(&plan.bytes).ok());
        let made = plan.and_then(|plan| made_row(&plan.selectors, &incoming.columns));
        let found = made.and_then(|made| find::difference(&made, &target.columns));
        let (Some((path, how)), Some(to)) = (found, case.target) else {
            return;
        };
        let way: Way = path.iter().map(step_index).collect();
        self.target = about(to, &way, &target.columns);
        self.note = Some(how);
    }

    /// Where the plan may give null to what is required.
    fn find_optional(&mut self, case: Case, target: &Layout) {
        let (Some(from), Some(to), Some(plan)) = (case.incoming, case.target, case.plan) else {
            return;
        };
        let way = find::optional_place(self.refusal, &from.bytes, target, &plan.bytes);
        self.target = way.and_then(|way| about(to, &way, &target.columns));
        self.target.iter_mut().for_each(About::mark);
        self.note = Some("the plan may give null there".to_string());
    }

    /// The target's column in which a run is refused; a field inside it where one by itself is.
    fn run_way(&self, case: Case, incoming: &Layout, target: &Layout) -> Option<Way> {
        let plan = read::read_plan(&case.plan?.bytes).ok()?;
        let run = find::Run {
            refusal: self.refusal,
            incoming: &case.incoming?.bytes,
            record: &case.record?.bytes,
        };
        let index = run.column(&plan, target)?;
        let inside = match self.refusal.reason {
            Reason::Overflow => run.field(plan.selectors.get(index)?, &incoming.columns),
            _ => Way::new(),
        };
        Some([vec![index], inside].concat())
    }

    /// The words of the list; of a table where one is refused.
    pub fn words(&self) -> String {
        let of_table = self
            .fault
            .as_ref()
            .is_some_and(|fault| fault.file == File::Table);
        match self.listed {
            Some(listed) if of_table => {
                listed.table.clone().unwrap_or_else(|| listed.words.clone())
            }
            Some(listed) => listed.words.clone(),
            None => self.refusal.reason.meaning().to_string(),
        }
    }

    fn name(&self) -> &str {
        self.listed.map_or("", |listed| &listed.name)
    }

    /// For people: first what, then where and what to do.
    pub fn text(&self) -> String {
        let (number, name, words) = (self.refusal.number(), self.name(), self.words());
        let mut text = wrapped(&format!("selector: refused {number} {name}: {words}"), 0, 2);
        if let (Some(fault), Some(file)) = (&self.fault, &self.file) {
            let at = match self.place {
                Some(place) => format!("{file}:{place}"),
                None => format!("{file}, {}", fault.offsets()),
            };
            let path = path_text(&fault.path);
            let within = if path.is_empty() {
                String::new()
            } else {
                format!(", in {path}")
            };
            text.push_str(&wrapped(
                &format!("{at}{within}: expected {}", fault.expected),
                2,
                2,
            ));
        }
        for (role, about) in [("target", &self.target), ("incoming", &self.incoming)] {
            if let Some(About { file, path, of, .. }) = about {
                text.push_str(&format!("  {role} {file}: {path}: {of}\n"));
            }
        }
        if let Some(note) = &self.note {
            text.push_str(&format!("  {note}\n"));
        }
        if let Some(listed) = self.listed {
            text.push_str(&wrapped(
                &format!("what to do: {}", listed.what_to_do),
                2,
                2,
            ));
        }
        text
    }

    pub fn json(&self) -> Json {
        let what_to_do = self.listed.map(|listed| listed.what_to_do.as_str());
        let fields = vec![
            ("number", self.refusal.number().into()),
            ("name", self.name().into()),
            ("words", self.words().into()),
            ("place", self.refusal.place.into()),
            (
                "bytes",
                self.fault
                    .as_ref()
                    .map(|fault| self.fault_json(fault))
                    .into(),
            ),
            ("target", self.target.as_ref().map(About::json).into()),
            ("incoming", self.incoming.as_ref().map(About::json).into()),
            ("note", self.note.as_deref().into()),
            ("do", what_to_do.into()),
        ];
        Json::Object(vec![("refused", Json::Object(fields))])
    }

    fn fault_json(&self, fault: &Fault) -> Json {
        let place = self.place.map(|place| {
            Json::Object(vec![
                ("line", place.line.into()),
                ("column", place.column.into()),
            ])
        });
        Json::Object(vec![
            ("file", self.file.as_deref().into()),
            ("from", fault.from.into()),
            ("to", fault.to.into()),
            ("text", place.into()),
            ("path", path_text(&fault.path).into()),
            ("expected", fault.expected.as_str().into()),
        ])
    }
}

impl About {
    /// Says whether the column is required, where that is what the refusal is about.
    fn mark(&mut self) {
        let mark = if self.required {
            "required"
        } else {
            "optional"
        };
        self.of = format!("{mark}, {}", self.of);
    }

    fn json(&self) -> Json {
        Json::Object(vec![
            ("file", self.file.as_str().into()),
            ("path", self.path.as_str().into()),
            ("type", self.of.as_str().into()),
        ])
    }
}

/// Where a file's bytes are broken; a record is one of the incoming layout.
fn fault_of(input: &Input, file: File, incoming: Option<&Input>) -> Option<Fault> {
    match file {
        File::Layout => read::read_layout(&input.bytes).err(),
        File::Table => read::read_table(&input.bytes).err(),
        File::Plan => read::read_plan(&input.bytes).err(),
        File::Record => {
            let layout = read::read_layout(&incoming?.bytes).ok()?;
            read::read_record(&input.bytes, &layout).err()
        }
    }
}

/// Says that bytes begin as those of another kind do.
fn other_kind(bytes: &[u8], file: File) -> Option<String> {
    let kinds = [File::Layout, File::Table, File::Plan];
    let other = kinds
        .into_iter()
        .find(|kind| *kind != file && bytes.starts_with(kind.mark()))?;
    (file != File::Record).then(|| format!("the file begins as a {} does", other.name()))
}

fn step_index(step: &read::Step) -> usize {
    match step {
        read::Step::Column(index, _) => *index,
        _ => 0,
    }
}

fn about(input: &Input, way: &Way, columns: &[Column]) -> Option<About> {
    let column = column_at(way, columns)?;
    Some(About {
        file: input.name.clone(),
        path: way_text(way, columns),
        of: type_text(&column.of),
        required: column.required,
    })
}
