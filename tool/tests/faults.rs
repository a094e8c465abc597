//! Every byte of the examples cut off or changed: the readers find the refusal that the library gives, at that byte or
//! a later one.

mod common;

use column_selector::{Defaults, Incoming, Layout, Plan, PlanBuf, Policy, Record, Refusal, Target};
use common::{Random, examples, file};
use selector_tool::read::{self, Fault, File};
use selector_tool::{form, write};

/// What one file of an example is judged with.
struct Case {
    file: File,
    bytes: Vec<u8>,
    incoming: Vec<u8>,
    target: Vec<u8>,
    plan: Vec<u8>,
}

impl Case {
    /// The number of the library's refusal where it is about these bytes, else 0.
    fn library(&self, bytes: &[u8]) -> u32 {
        let (incoming, target) = (
            Incoming(Layout::new(&self.incoming)),
            Target(Layout::new(&self.target)),
        );
        let answer: Result<(), Refusal> = match self.file {
            File::Layout => Layout::read(bytes).map(drop),
            File::Table => {
                let none = Layout::new(b"LAY\x02\x00\x00\x00");
                PlanBuf::build_by_number(
                    Policy::ALL,
                    Incoming(none),
                    Target(none),
                    Defaults::new(bytes),
                )
                .map(drop)
            }
            File::Plan => Plan::new(bytes).check(incoming, target),
            File::Record => Plan::new(&self.plan)
                .run(incoming, target, Record::new(bytes))
                .map(drop),
        };
        let number = answer.err().map_or(0, Refusal::number);
        match self.file {
            File::Plan if number != 30 => 0,
            File::Record if matches!(number, 44 | 45) => 0,
            _ => number,
        }
    }

    fn fault(&self, bytes: &[u8]) -> Option<Fault> {
        match self.file {
            File::Layout => read::read_layout(bytes).err(),
            File::Table => read::read_table(bytes).err(),
            File::Plan => read::read_plan(bytes).err(),
            File::Record => {
                read::read_record(bytes, &read::read_layout(&self.incoming).unwrap()).err()
            }
        }
    }

    /// Bytes that are as before up to an offset.
    fn judge(&self, bytes: &[u8], from: usize) -> bool {
        let (number, fault) = (self.library(bytes), self.fault(bytes));
        let found = fault.as_ref().map_or(0, Fault::number);
        assert_eq!(found, number, "{:?} {bytes:02x?}: {fault:?}", self.file);
        if let Some(fault) = fault {
            let last = fault.to.max(fault.from + 1) - 1;
            assert!(
                last >= from || fault.to >= bytes.len(),
                "{from} {bytes:02x?}: {fault:?}"
            );
            assert!(
                fault.to <= bytes.len() && fault.from <= fault.to,
                "{fault:?}"
            );
            assert!(!fault.expected.is_empty());
        }
        number != 0
    }

    /// Each length, and each byte made each other one; how often these were refused.
    fn damage(&self) -> usize {
        let mut refused = 0;
        for length in 0..self.bytes.len() {
            refused += usize::from(self.judge(&self.bytes[..length], length));
        }
        let mut bytes = self.bytes.clone();
        for at in 0..bytes.len() {
            for byte in 0..=u8::MAX {
                bytes[at] = byte;
                refused += usize::from(self.judge(&bytes, at));
            }
            bytes[at] = self.bytes[at];
        }
        bytes.push(0);
        self.judge(&bytes, self.bytes.len());
        refused
    }
}

#[test]
fn the_examples_damaged() {
    for folder in examples() {
        let read = |name| file(&folder, name);
        let (incoming, target, plan) = (read("incoming.lay"), read("target.lay"), read("plan.pln"));
        for (kind, name) in [
            (File::Layout, "incoming.lay"),
            (File::Layout, "target.lay"),
            (File::Table, "defaults.def"),
            (File::Plan, "plan.pln"),
            (File::Record, "record.bin"),
        ] {
            let Some(bytes) = read(name) else {
                continue;
            };
            let (incoming, target, plan) = (incoming.clone(), target.clone(), plan.clone());
            let case = Case {
                file: kind,
                bytes,
                incoming: incoming.unwrap(),
                target: target.unwrap(),
                plan: plan.unwrap(),
            };
            assert!(!case.judge(&case.bytes, 0), "{}/{name}", folder.display());
            assert!(
                case.damage() > case.bytes.len(),
                "{}/{name}",
                folder.display()
            );
        }
    }
}

/// Layouts, tables, records and plans at random, with some bytes changed, put in or taken out.
#[test]
fn random_files_damaged() {
    let mut random = Random(7);
    for _ in 0..4000 {
        let layout = random.layout();
        let bytes = write::layout_bytes(&layout).unwrap();
        let record = write::record_bytes(&random.record(&layout), &layout).unwrap();
        let table = write::table_bytes(&random.table()).unwrap();
        let selectors = (0..layout.columns.len() as u16)
            .map(form::Selector::Position)
            .collect();
        let plan = write::plan_bytes(&form::Plan {
            version: 1,
            selectors,
        })
        .unwrap();
        for (file, damaged) in [
            (File::Layout, &bytes),
            (File::Record, &record),
            (File::Table, &table),
            (File::Plan, &plan),
        ] {
            let case = Case {
                file,
                bytes: damaged.clone(),
                incoming: bytes.clone(),
                target: bytes.clone(),
                plan: plan.clone(),
            };
            let mut damaged = damaged.clone();
            let from = random.below(damaged.len() + 1);
            let byte = if random.below(2) == 0 {
                random.below(24) as u8
            } else {
                random.next() as u8
            };
            match random.below(3) {
                0 => damaged.insert(from, byte),
                1 if from < damaged.len() => damaged[from] = byte,
                _ => drop(damaged.drain(from..damaged.len().min(from + 1))),
            }
            case.judge(&damaged, from);
        }
    }
}

/// The limits: lengths, depth, nesting.
#[test]
fn limits() {
    let case = |file, bytes: &[u8]| Case {
        file,
        bytes: bytes.to_vec(),
        incoming: b"LAY\x01\x00\x01\x00\x01a\x02".to_vec(),
        target: b"LAY\x01\x00\x01\x00\x01a\x02".to_vec(),
        plan: b"PLN\x01\x00\x01\x00\x00\x00\x00".to_vec(),
    };
    for (file, length) in [
        (File::Layout, 16_385),
        (File::Table, 16_385),
        (File::Plan, 65_537),
        (File::Record, 16_385),
    ] {
        let bytes = vec![0; length];
        assert!(case(file, &bytes).judge(&bytes, length - 1));
    }
    for depth in 14..19 {
        let bytes = [
            b"LAY\x01\x00\x01\x00\x01a".as_slice(),
            &vec![19; depth],
            &[2],
        ]
        .concat();
        assert_eq!(case(File::Layout, &bytes).judge(&bytes, 0), depth > 15);
        assert!(case(File::Layout, &bytes).judge(&bytes[..bytes.len() - 1], 0));
    }
    for nest in 62..67 {
        let bytes = [
            b"PLN\x01\x00\x01\x00".as_slice(),
            &vec![3; nest],
            &[0, 0, 0],
            &vec![0; nest],
        ]
        .concat();
        assert_eq!(case(File::Plan, &bytes).judge(&bytes, 0), nest > 63);
    }
}
