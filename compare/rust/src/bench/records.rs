//! Runs over records with nulls and long lists; and beside Rust that has read and checked its layouts and plan before.

use super::*;

/// Every third value is null, at each level.
fn write_nulls(bytes: &mut Vec<u8>, type_: &Type, turn: &mut usize) {
    *turn += 1;
    if turn.is_multiple_of(3) {
        bytes.push(0);
        return;
    }
    match type_ {
        Type::Struct(columns) => {
            bytes.push(1);
            for column in columns {
                write_nulls(bytes, &column.type_, turn);
            }
        }
        Type::List(element) => {
            bytes.extend([1, 3, 0]);
            for _ in 0..3 {
                write_nulls(bytes, &element.type_, turn);
            }
        }
        _ => write_value(bytes, type_),
    }
}

/// A plan of the usual columns over a record with nulls.
fn with_nulls(count: usize) -> Option<Planned> {
    let case = case(1, count, Order::Reversed, Place::Top);
    let plan = built_plainly(&case).ok()?;
    let columns = form::read_layout(&case.incoming).ok()?.columns;
    let (mut record, mut turn) = (Vec::new(), 0);
    for column in &columns {
        write_nulls(&mut record, &column.type_, &mut turn);
    }
    Planned::over(case, plan, record)
}

/// One column, a list: of an integer that becomes a wider one, or of a struct whose fields are turned round.
fn list(structure: bool, role: Role) -> Vec<u8> {
    let code = match role {
        Role::Incoming => 3,
        Role::Target => 4,
    };
    let leaf = || Type::Leaf(Leaf::Plain(code));
    let mut fields = [b"a", b"b", b"c"].map(|name| Column::of(name, leaf()));
    if role == Role::Target {
        fields.reverse();
    }
    let element = match structure {
        true => Type::Struct(fields.into()),
        false => leaf(),
    };
    let columns = vec![Column::of(
        b"readings",
        Type::List(Box::new(Column::of(&[], element))),
    )];
    form::write_layout(&Layout {
        version: 1,
        columns,
    })
}

/// A list of so many elements.
fn long_list(structure: bool, elements: u16) -> Option<Planned> {
    let layout = |role: Role| list(structure, role);
    let case = of_layouts(1, layout(Role::Incoming), layout(Role::Target));
    let plan = built_plainly(&case).ok()?;
    let mut record = vec![1];
    record.extend(elements.to_le_bytes());
    for index in 0..elements {
        let [low, high] = index.to_le_bytes();
        if structure {
            record.extend([1, 1, low, high, 1, high, low, 1, low, low]);
        } else {
            record.extend([1, low, high]);
        }
    }
    Planned::over(case, plan, record)
}

impl Planned {
    /// The library reads and checks all that it is given for each record; this Rust has done so before.
    fn running_read(&self, name: &str, count: usize) -> Result<(), String> {
        let (incoming, target, plan) = (&self.case.incoming, &self.case.target, &self.plan);
        let read = plainly::Read::new(incoming, target, plan).map_err(|_| differs(name))?;
        let mut buffer = vec![0; RECORD_LIMIT];
        let record = &self.record;
        let output = read.run(record, RECORD_LIMIT);
        if read.check().is_err() || output.as_ref() != Ok(&self.output) {
            return Err(differs(name));
        }
        line(
            name,
            count,
            || {
                let (record, plan) = black_box((record, plan));
                black_box(library::run(incoming, target, plan, record, &mut buffer)).ok();
            },
            || {
                black_box(read.run(black_box(record), RECORD_LIMIT)).ok();
            },
        );
        Ok(())
    }
}

pub fn run() -> Result<(), String> {
    println!("Records with nulls, and with long lists (the count is that of the elements):");
    for count in [SMALL, MIDDLE, 400] {
        let planned = with_nulls(count).ok_or("nulls: no plan")?;
        planned.running("running, a third is null", count)?;
    }
    for (structure, name, counts) in [
        (false, "running, a list of integers", [100u16, 1_000, 3_000]),
        (true, "running, a list of structs", [100, 400, 900]),
    ] {
        for count in counts {
            let planned = long_list(structure, count).ok_or("lists: no plan")?;
            planned.running(name, count.into())?;
        }
    }
    println!(
        "A run beside Rust that has read and checked layouts and plan once, and does nothing but the record (the library keeps nothing and does all of it):"
    );
    for count in [SMALL, MIDDLE, 400] {
        let planned = Planned::new(count, Order::Reversed, Place::Top).ok_or("no plan")?;
        planned.running_read("running, plan read before", count)?;
    }
    Ok(())
}
