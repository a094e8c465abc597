//! Casts, constants and overflows, one over another.

use super::Trials;
use super::values::{
    LAST, MS, NS, NULL, US, array, cast_first, count, int8, leaf, list, list_value, seven,
    struct_value, structure, time,
};
use plain::form::{Leaf, Type};
use plain::rules::CastOption::{NonStrict, Overflowing, Strict};
use plain::write::{array_mapping, cast, constant, list_mapping, position, rename, struct_mapping};

impl Trials<'_> {
    /// Casts of casts, and every pair of numbers.
    pub(super) fn number_casts(&mut self) {
        let wider = |input: Vec<u8>, code: u8| cast(&input, &leaf(code), Overflowing);
        let other = |input: Vec<u8>, code: u8| cast(&input, &leaf(code), NonStrict);
        let int64 = [3, 4, 5].into_iter().fold(position(0), wider);
        let float = [11, 10, 12, 11, 12, 10].into_iter();
        let float = float.fold(wider(int64.clone(), 12), other);
        self.plan(&[int8()], &[int64, float]).random();
        for code in 2..=9 {
            let floats = [10, 11, 12].map(|to| wider(position(0), to));
            self.plan(&[leaf(code)], &floats).random();
        }
        for code in 10..=12 {
            let others = (10..=12).filter(|to| *to != code);
            let others: Vec<_> = others.map(|to| other(position(0), to)).collect();
            self.plan(&[leaf(code)], &others).random();
        }
    }

    /// A null goes anywhere, and on; but never to its own type.
    pub(super) fn null_casts(&mut self) {
        let null = || leaf(0);
        let int64 = cast(&cast_first(&int8(), NonStrict), &leaf(5), Overflowing);
        self.one(null(), int64).gives(&NULL, &NULL);
        let nested = cast_first(&structure(&[int8(), list(int8())]), NonStrict);
        let nested = struct_mapping(&nested, &[position(1)]);
        self.one(null(), nested).gives(&NULL, &NULL);
        let mut refused = |type_: Type, to: Type, option| {
            self.one(type_, cast_first(&to, option)).run(&NULL, 32);
        };
        refused(null(), null(), NonStrict);
        refused(null(), int8(), Strict);
        refused(null(), list(int8()), Overflowing);
        refused(structure(&[]), structure(&[]), NonStrict);
        refused(structure(&[]), null(), NonStrict);
    }

    /// Units one after the other; what was too large stays so.
    pub(super) fn time_casts(&mut self) {
        let to = |input: &[u8], unit: u8, option| cast(input, &time(unit), option);
        let finer = to(&to(&position(0), US, Strict), NS, Strict);
        let coarser_again = to(&finer, MS, NonStrict);
        self.one(time(MS), finer)
            .gives(&count(LAST), &count(LAST * 1_000_000))
            .run(&count(LAST + 1), 44)
            .random();
        self.one(time(MS), coarser_again)
            .gives(&count(LAST), &count(LAST))
            .run(&count(-LAST - 1), 44);
        let finer_again = to(&to(&position(0), MS, NonStrict), NS, Strict);
        self.one(time(NS), finer_again)
            .gives(&count(-1), &count(-1_000_000))
            .run(&count(i64::MIN), 44)
            .random();
        let zoned = |input: Vec<u8>, at: usize| {
            let zone = [b"UTC".to_vec(), Vec::new()][at % 2].clone();
            cast(
                &input,
                &Type::Leaf(Leaf::Datetime { unit: NS, zone }),
                NonStrict,
            )
        };
        let zones = |casts: usize| (0..casts).fold(position(0), zoned);
        self.one(time(NS), zones(63)).gives(&count(5), &count(5));
        self.one(time(NS), zones(64)).run(&count(5), 30);
    }

    /// A constant is given wherever its selector is run, for null elements too; a null input stays null.
    pub(super) fn constants(&mut self) {
        let values = [NULL.to_vec(), vec![1, 5], NULL.to_vec()];
        let sevens = vec![vec![1, 7]; 3];
        let mapped = list_mapping(&position(0), &seven());
        for selector in [mapped.clone(), list_mapping(&mapped, &position(0))] {
            self.one(list(int8()), selector)
                .gives(&list_value(&values), &list_value(&sevens))
                .gives(&NULL, &NULL);
        }
        let mapped = array_mapping(&position(0), &seven());
        let output = struct_value(&sevens);
        self.one(array(3, int8()), mapped)
            .gives(&struct_value(&values), &output)
            .gives(&NULL, &NULL);
        // A null struct stays null, unless its element's selector is a constant.
        let type_ = list(structure(&[int8()]));
        let record = list_value(&[NULL.to_vec(), vec![1, 0], vec![1, 1, 3]]);
        let fields = struct_mapping(&position(0), &[position(0), seven()]);
        let output = list_value(&[NULL.to_vec(), vec![1, 0, 1, 7], vec![1, 1, 3, 1, 7]]);
        self.one(type_.clone(), list_mapping(&position(0), &fields))
            .gives(&record, &output);
        let input = constant(b"", &structure(&[int8()]), &[1, 1, 4]);
        let fields = struct_mapping(&input, &[seven(), position(0)]);
        let output = list_value(&vec![vec![1, 1, 7, 1, 4]; 3]);
        self.one(type_, list_mapping(&position(0), &fields))
            .gives(&record, &output);
    }

    /// A strict overflow counts where it goes into the output, and only there.
    pub(super) fn field_overflows(&mut self) {
        let type_ = || structure(&[time(MS), int8()]);
        let both = both_fields();
        let record = struct_value(&[count(LAST + 1), vec![1, 3]]);
        let first = struct_mapping(&both, &[position(0)]);
        let second = struct_mapping(&both, &[position(1)]);
        let none = struct_mapping(&both, &[]);
        self.one(type_(), both.clone()).run(&record, 44);
        self.one(type_(), first)
            .run(&record, 44)
            .gives(&NULL, &NULL);
        self.one(type_(), second).gives(&record, &[1, 1, 3]);
        self.one(type_(), none).gives(&record, &[1]);
        let renamed = struct_mapping(&both, &[rename(&position(0), b"n")]);
        let selectors = [position(0), rename(&renamed, b"m")];
        self.plan(&[type_()], &selectors).run(&record, 44);
    }

    /// The same in elements.
    pub(super) fn element_overflows(&mut self) {
        let type_ = structure(&[time(MS), int8()]);
        let types = [list(type_.clone()), array(2, type_)];
        let fits = struct_value(&[count(LAST), vec![1, 3]]);
        let exceeds = struct_value(&[count(LAST + 1), vec![1, 3]]);
        let listed = list_value(&[fits, exceeds.clone()]);
        let record = [listed, struct_value(&[NULL.to_vec(), exceeds])].concat();

        let both = both_fields();
        let outer = |field: u16| struct_mapping(&position(0), &[position(field)]);
        let kept = struct_mapping(&both, &[position(0)]);
        let dropped = struct_mapping(&both, &[position(1)]);
        let (in_list, in_array) = (
            list_mapping(&position(0), &both),
            array_mapping(&position(1), &both),
        );
        let mut run = |list: Vec<u8>, array: Vec<u8>, number: u32| {
            self.plan(&types, &[list, array])
                .run(&record, number)
                .random();
        };
        let (list_of, array_of) = (position(0), position(1));
        run(
            list_mapping(&list_of, &dropped),
            array_mapping(&array_of, &dropped),
            0,
        );
        run(
            list_mapping(&list_of, &kept),
            array_mapping(&array_of, &dropped),
            44,
        );
        run(
            list_mapping(&list_of, &dropped),
            array_mapping(&array_of, &kept),
            44,
        );
        // Mappings over these mappings.
        run(
            list_mapping(&in_list, &seven()),
            array_mapping(&in_array, &seven()),
            0,
        );
        run(
            list_mapping(&in_list, &position(0)),
            array_mapping(&in_array, &seven()),
            44,
        );
        run(
            list_mapping(&in_list, &outer(1)),
            array_mapping(&in_array, &outer(1)),
            0,
        );
        run(
            list_mapping(&in_list, &outer(1)),
            array_mapping(&in_array, &outer(0)),
            44,
        );
    }
}

/// Over a struct of milliseconds and another field: nanoseconds and that field.
fn both_fields() -> Vec<u8> {
    struct_mapping(&position(0), &[cast_first(&time(NS), Strict), position(1)])
}
