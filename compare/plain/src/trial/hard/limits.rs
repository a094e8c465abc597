//! Every limit and one past it, and what does not fit.

use super::Trials;
use super::values::{
    LAST, NULL, array, cast_first, column, int8, leaf, list, list_value, lists, nanoseconds,
    struct_value, structure, text_value,
};
use plain::form::{PLAN_LIMIT, RECORD_LIMIT, Type};
use plain::rules::CastOption::NonStrict;
use plain::write::{array_mapping, constant, list_mapping, plan, position, rename, struct_mapping};

impl Trials<'_> {
    /// Selectors 64 deep, and one more.
    pub(super) fn nesting(&mut self) {
        let renamed = |times: u32| (0..times).fold(position(0), |input, _| rename(&input, b"n"));
        self.one(int8(), renamed(63)).gives(&[1, 3], &[1, 3]);
        self.one(int8(), renamed(64)).run(&[1, 3], 30);
        let record = list_value(&[vec![1, 3]]);
        let mapped = |times: u32| list_mapping(&position(0), &renamed(times));
        self.one(list(int8()), mapped(62)).gives(&record, &record);
        self.one(list(int8()), mapped(63)).run(&record, 30);
    }

    /// Types 16 deep, and one more.
    pub(super) fn depths(&mut self) {
        for (levels, number) in [(13, 0), (14, 0), (15, 32)] {
            let deep = constant(b"", &lists(levels, int8()), &NULL);
            let listed = list_mapping(&position(0), &deep);
            self.one(list(int8()), listed).run(&list_value(&[]), number);
            let arrayed = array_mapping(&position(0), &deep);
            self.one(array(1, int8()), arrayed).run(&NULL, number);
            let field = struct_mapping(&position(0), &[deep]);
            self.one(structure(&[]), field).run(&[1], number);
        }
        let deepest = cast_first(&lists(15, int8()), NonStrict);
        self.one(leaf(0), deepest).gives(&NULL, &NULL);
        let deeper = constant(b"", &lists(16, int8()), &NULL);
        self.plan(&[], &[deeper]).run(&[], 30);
    }

    /// Types of 16,384 bytes, and one more, which is refused even where an outer mapping drops it.
    pub(super) fn lengths(&mut self) {
        // 3 bytes, 255 fields of 64 and one of 60, 61 or 62.
        for (last, number) in [(58, 0), (59, 0), (60, 32)] {
            let mut names = vec![vec![b'n'; 62]; 255];
            names.push(vec![b'l'; last]);
            let fields: Vec<_> = names
                .iter()
                .map(|name| rename(&position(0), name))
                .collect();
            let wide = struct_mapping(&position(0), &fields);
            let selector = struct_mapping(&wide, &[position(255)]);
            self.one(structure(&[int8()]), selector)
                .run(&[1, 1, 9], number);
        }
        // A constant's own type has no such limit, but a transform's result does.
        let huge = Type::Struct(vec![column("", int8()); 8_200]);
        let huge = constant(b"h", &huge, &NULL);
        let field = |at: u16| struct_mapping(&huge, &[position(at)]);
        self.plan(&[], &[field(8_199)]).gives(&[], &NULL);
        self.plan(&[], &[field(8_200)]).run(&[], 31);
        self.plan(&[], &[rename(&huge, b"r")]).run(&[], 32);
        self.plan(&[], &[huge]).run(&[], 33);
    }

    /// Positions that are not there, and inputs of another kind.
    pub(super) fn unfit(&mut self) {
        let types = [int8(), list(int8()), array(2, int8()), structure(&[int8()])];
        let mut run = |selectors: &[Vec<u8>], number: u32| {
            self.plan(&types, selectors).run(&[0; 4], number);
        };
        run(&[position(0), position(3)], 0);
        run(&[position(0), position(4)], 31);
        run(&[position(u16::MAX)], 31);
        run(&[list_mapping(&position(1), &position(1))], 31);
        run(&[array_mapping(&position(2), &position(1))], 31);
        run(
            &[struct_mapping(&position(3), &[position(0), position(1)])],
            31,
        );
        // The input comes first, then its kind, then the selectors inside.
        run(&[struct_mapping(&position(9), &[])], 31);
        run(&[list_mapping(&position(2), &position(1))], 32);
        run(&[array_mapping(&position(1), &position(1))], 32);
        run(&[struct_mapping(&position(0), &[position(9)])], 32);
    }

    /// Records that don't fit.
    pub(super) fn records(&mut self) {
        self.plan(&[leaf(1), leaf(0)], &[position(0)])
            .run(&[1, 1, 0], 0)
            .run(&[1, 2, 0], 41)
            .run(&[0, 1], 41)
            .run(&[0, 2], 41)
            .run(&[0], 40)
            .run(&[0, 0, 0], 42);
        self.one(array(u32::MAX, int8()), position(0))
            .run(&NULL, 0)
            .run(&[1, 0, 0], 40);
        let mapped = array_mapping(&position(0), &nanoseconds(LAST + 1));
        self.one(array(0, int8()), mapped).gives(&[1], &[1]);
        self.one(list(int8()), position(0)).run(&[1, 255, 255], 40);
        self.plan(&[], &[]).gives(&[], &[]).run(&[0], 42);
    }

    /// Records, outputs and plans at their limits.
    pub(super) fn limits(&mut self) {
        self.one(leaf(16), position(0))
            .run(&text_value(RECORD_LIMIT - 3), 0)
            .run(&text_value(RECORD_LIMIT - 2), 43)
            .run(&[7; RECORD_LIMIT + 1], 43);
        let null = constant(b"", &int8(), &NULL);
        self.plan(&[leaf(16)], &[position(0), null])
            .run(&text_value(RECORD_LIMIT - 4), 0)
            .run(&text_value(RECORD_LIMIT - 3), 45);
        let dropped = |length: usize| {
            let value = struct_value(&[text_value(length)]);
            struct_mapping(&constant(b"", &structure(&[leaf(16)]), &value), &[])
        };
        let around = plan(&[dropped(0)]).len();
        for (length, number) in [(PLAN_LIMIT, 0), (PLAN_LIMIT + 1, 30)] {
            self.plan(&[], &[dropped(length - around)]).run(&[], number);
        }
    }
}
