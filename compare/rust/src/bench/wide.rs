//! Layouts of many columns: each int8 becomes an int16, in the opposite order.

use super::*;

const COUNTS: [usize; 2] = [1_000, 2_000];

/// The most columns of a version.
fn most(version: u8) -> usize {
    widest(version).0
}

/// Names are two characters; by number there are none, for want of space.
fn layout(version: u8, count: usize, role: Role) -> Vec<u8> {
    let (code, turned) = match role {
        Role::Incoming => (2, false),
        Role::Target => (3, true),
    };
    let column = |index: usize| {
        let index = if turned { count - 1 - index } else { index };
        let name = [b' ' + (index / 64) as u8, b' ' + (index % 64) as u8];
        Column {
            id: index as u32,
            ..Column::of(
                if version == 1 { &name } else { &[] },
                Type::Leaf(Leaf::Plain(code)),
            )
        }
    };
    let columns = (0..count).map(column).collect();
    form::write_layout(&Layout { version, columns })
}

fn case(version: u8, count: usize) -> Case {
    let layout = |role: Role| layout(version, count, role);
    of_layouts(version, layout(Role::Incoming), layout(Role::Target))
}

pub fn run() -> Result<(), String> {
    println!("Many columns of int8, each made an int16, turned round:");
    for (version, matching) in [(1, "name"), (2, "number")] {
        let cases: Vec<_> = COUNTS
            .into_iter()
            .chain([most(version)])
            .map(|count| (count, case(version, count)))
            .collect();
        for (count, case) in &cases {
            reading(
                &format!("wide, reading, version {version}"),
                *count,
                &case.target,
            )?;
            let name = format!("wide, reading, version {version}, no tree");
            validating(&name, *count, &case.target)?;
        }
        for (count, case) in &cases {
            building(&format!("wide, building by {matching}"), *count, case)?;
        }
        let planned: Vec<_> = cases
            .into_iter()
            .map(|(count, case)| {
                let plan = built_plainly(&case).ok();
                (count, plan.and_then(|plan| Planned::of(case, plan)))
            })
            .collect();
        for (count, planned) in &planned {
            let planned = planned.as_ref().ok_or("wide: no plan")?;
            planned.checking(&format!("wide, checking, version {version}"), *count)?;
        }
        for (count, planned) in &planned {
            let planned = planned.as_ref().ok_or("wide: no plan")?;
            planned.running(&format!("wide, running, version {version}"), *count)?;
        }
    }
    Ok(())
}
