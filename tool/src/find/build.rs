//! The field in which a build is refused.

use crate::follow::Way;
use crate::form::{Column, Layout, Leaf, Selector, Type};
use crate::read::read_plan;
use crate::write::layout_bytes;
use column_selector::{Defaults, Incoming, Place, PlanBuf, Policy, Refusal, Target};

/// The arguments of a build but the layouts.
#[derive(Clone, Copy)]
pub struct Build<'a> {
    pub by_number: bool,
    pub policy: Policy,
    pub defaults: Defaults<'a>,
}

/// The target's field or column and its counterpart, each by its indexes from the top.
#[derive(Clone, Debug, Default, PartialEq, Eq)]
pub struct Spot {
    pub target: Way,
    pub incoming: Option<Way>,
}

impl Build<'_> {
    /// The build of two layouts.
    pub fn call(&self, incoming: &[u8], target: &[u8]) -> Result<PlanBuf, Refusal> {
        let incoming = Incoming(column_selector::Layout::new(incoming));
        let target = Target(column_selector::Layout::new(target));
        match self.by_number {
            true => PlanBuf::build_by_number(self.policy, incoming, target, self.defaults),
            false => PlanBuf::build_by_name(self.policy, incoming, target),
        }
    }

    /// The build of columns.
    fn columns(&self, incoming: &[Column], target: &[Column]) -> Result<PlanBuf, Refusal> {
        let bytes = |columns: &[Column]| {
            let version = match self.by_number {
                true if columns.iter().any(Column::has_required) => 3,
                true => 2,
                false => 1,
            };
            let columns = columns.to_vec();
            layout_bytes(&Layout { version, columns }).unwrap_or_default()
        };
        self.call(&bytes(incoming), &bytes(target))
    }

    /// The selector of a column alone, without what is said of incoming columns that it leaves over.
    pub fn column(&self, incoming: &[Column], column: &Column) -> Result<Selector, Refusal> {
        let plan = self
            .inner()
            .columns(incoming, std::slice::from_ref(column))?;
        let mut plan = read_plan(plan.plan().as_bytes()).expect("a built plan is one");
        Ok(plan.selectors.remove(0))
    }

    fn refusal_of(&self, incoming: &[Column], column: &Column) -> Option<Refusal> {
        self.inner()
            .columns(incoming, std::slice::from_ref(column))
            .err()
    }

    /// The same for columns that are fields elsewhere: a missing column is what a missing field is there, and others
    /// that are left over are not looked at.
    fn inner(&self) -> Self {
        Build {
            policy: self.policy | Policy::IGNORE_EXTRA_COLUMNS,
            ..*self
        }
    }

    fn fields(&self) -> Self {
        let missing = Policy::INSERT_MISSING_COLUMNS;
        let inner = self.inner();
        let policy = match self.policy.allows(Policy::INSERT_MISSING_STRUCT_FIELDS) {
            true => inner.policy | missing,
            false => inner.policy - missing,
        };
        Build { policy, ..inner }
    }

    /// The column or field in which a build was refused.
    pub fn spot(&self, refusal: Refusal, incoming: &[Column], target: &[Column]) -> Option<Spot> {
        let index = match refusal.reason.place() {
            Place::Column => refusal.place as usize,
            _ => target.iter().position(|column| {
                self.refusal_of(incoming, column)
                    .is_some_and(|found| found.reason == refusal.reason)
            })?,
        };
        let mut spot = Spot {
            target: vec![index],
            incoming: None,
        };
        let counterpart = self.counterpart(target.get(index)?, incoming);
        spot.incoming = counterpart.map(|(index, _)| vec![index]);
        let counterpart = counterpart.map(|(_, column)| column);
        self.descend(refusal.number(), counterpart, &target[index], &mut spot);
        Some(spot)
    }

    /// The column of the same name, by number of the same id.
    pub fn counterpart<'c>(
        &self,
        column: &Column,
        among: &'c [Column],
    ) -> Option<(usize, &'c Column)> {
        among
            .iter()
            .enumerate()
            .find(|(_, other)| match self.by_number {
                true => other.id == column.id,
                false => other.name == column.name,
            })
    }

    /// Whether it is the column itself, not something inside it, that is refused for what is required.
    fn itself(&self, number: u32, incoming: Option<&Column>, target: &Column) -> bool {
        let refused = |incoming: &[Column], target: &Column| {
            let refusal = self.refusal_of(incoming, target);
            refusal.is_some_and(|refusal| refusal.number() == number)
        };
        match (number, incoming) {
            (MISSING_REQUIRED, None) => {
                let optional = Column {
                    required: false,
                    ..target.clone()
                };
                !refused(&[], &optional)
            }
            // Of one leaf type, so that only the marks differ.
            (OPTIONAL_TO_REQUIRED, Some(incoming)) => {
                let of = match &incoming.of {
                    Type::Leaf(leaf) => Type::Leaf(leaf.clone()),
                    _ => Type::Leaf(Leaf::Boolean),
                };
                let [one, other] = [incoming.required, target.required].map(|required| Column {
                    required,
                    of: of.clone(),
                    ..target.clone()
                });
                refused(&[one], &other)
            }
            _ => false,
        }
    }

    /// Goes on inside a column that is refused.
    fn descend(&self, number: u32, incoming: Option<&Column>, target: &Column, spot: &mut Spot) {
        if self.itself(number, incoming, target) {
            return;
        }
        match (incoming.map(|column| &column.of), &target.of) {
            (Some(Type::Struct(ones)), Type::Struct(others)) => {
                self.descend_fields(number, ones, others, spot)
            }
            (None, Type::Struct(others)) => self.descend_fields(number, &[], others, spot),
            (Some(Type::List(one)), Type::List(other))
            | (Some(Type::Array(_, one)), Type::Array(_, other)) => {
                let same = Column {
                    required: one.required,
                    of: one.of.clone(),
                    ..(**other).clone()
                };
                // No field inside an element has a default.
                let build = Build {
                    defaults: Defaults::NONE,
                    ..*self
                };
                let refused = build.refusal_of(&[same], other);
                if refused.is_some_and(|refusal| refusal.number() == number) {
                    spot.step(0, Some(0));
                    build.descend(number, Some(one), other, spot);
                }
            }
            _ => {}
        }
    }

    fn descend_fields(&self, number: u32, incoming: &[Column], target: &[Column], spot: &mut Spot) {
        let here = match number {
            REPEATED_NAME => repeats(incoming).map(|index| spot.inner(index)),
            EXTRA_FIELD => incoming
                .iter()
                .position(|field| self.counterpart(field, target).is_none())
                .map(|index| spot.inner(index)),
            _ => None,
        };
        if here.is_some() {
            spot.incoming = here;
            return;
        }
        let build = self.fields();
        let refused = build.columns(incoming, target).err().filter(|refusal| {
            refusal.number() == number
                || (refusal.number(), number) == (MISSING_COLUMN, MISSING_FIELD)
        });
        let Some(index) = refused.and_then(|refusal| build.spot(refusal, incoming, target)) else {
            return;
        };
        let above = spot.incoming.take();
        spot.target.extend(index.target);
        spot.incoming = above
            .zip(index.incoming)
            .map(|(above, inner)| [above, inner].concat());
    }
}

const MISSING_COLUMN: u32 = 11;
const REPEATED_NAME: u32 = 12;
const EXTRA_FIELD: u32 = 13;
const MISSING_FIELD: u32 = 14;
const MISSING_REQUIRED: u32 = 54;
const OPTIONAL_TO_REQUIRED: u32 = 55;

impl Spot {
    fn step(&mut self, target: usize, incoming: Option<usize>) {
        self.target.push(target);
        self.incoming = incoming.map(|index| self.inner(index));
    }

    /// The way to a field of the incoming column.
    fn inner(&self, index: usize) -> Way {
        [self.incoming.as_deref().unwrap_or_default(), &[index]].concat()
    }
}

/// The first column that has the name of one before it.
fn repeats(columns: &[Column]) -> Option<usize> {
    (0..columns.len()).find(|index| {
        columns[..*index]
            .iter()
            .any(|column| column.name == columns[*index].name)
    })
}
