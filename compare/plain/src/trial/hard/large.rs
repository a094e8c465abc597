//! Plans that ask for far more than fits, or for much work.

use super::Trials;
use super::values::{
    LAST, MS, NS, NULL, array, cast_first, column, count, int8, leaf, list, list_value,
    nanoseconds, struct_value, structure, time,
};
use plain::form::Type;
use plain::rules::CastOption::Strict;
use plain::selector::NESTING_LIMIT;
use plain::write::{array_mapping, constant, list_mapping, position, struct_mapping};

/// Mappings of lists one inside another, each of 300 elements but one, which is empty.
fn nested_lists(empty: usize, inner: Vec<u8>) -> Vec<u8> {
    (0..LEVELS).rev().fold(inner, |inner, level| {
        let elements = if level == empty { 0 } else { 300 };
        let value = list_value(&vec![NULL.to_vec(); elements]);
        list_mapping(&constant(b"", &list(int8()), &value), &inner)
    })
}

/// The same of arrays.
fn nested_arrays(inner: Vec<u8>) -> Vec<u8> {
    let value = struct_value(&vec![NULL.to_vec(); 300]);
    let input = constant(b"", &array(300, int8()), &value);
    (0..LEVELS).fold(inner, |inner, _| array_mapping(&input, &inner))
}

const LEVELS: usize = 14;

impl Trials<'_> {
    /// Lists or arrays of hundreds of elements, one inside another: some 300 to the power of 14.
    pub(super) fn many_elements(&mut self) {
        let mut run = |selectors: &[Vec<u8>], number: u32| {
            self.plan(&[], selectors).run(&[], number);
        };
        run(&[nested_lists(LEVELS, nanoseconds(LAST))], 45);
        run(&[nested_lists(LEVELS, nanoseconds(LAST + 1))], 44);
        run(&[nested_lists(LEVELS, position(0))], 45);
        // What is inside an empty list is not run.
        run(&[nested_lists(0, nanoseconds(LAST + 1))], 0);
        run(&[nested_lists(1, nanoseconds(LAST + 1))], 0);
        run(&[nested_lists(9, nanoseconds(LAST + 1))], 45);
        run(&[nested_arrays(nanoseconds(LAST))], 45);
        let (fits, exceeds) = (nanoseconds(LAST - 1), nanoseconds(LAST + 1));
        run(&[nested_arrays(fits), nested_arrays(exceeds)], 44);

        let driven = list_mapping(&position(0), &nested_lists(LEVELS, nanoseconds(LAST + 1)));
        self.one(list(int8()), driven)
            .run(&list_value(&[]), 0)
            .run(&NULL, 0)
            .run(&list_value(&[NULL.to_vec()]), 44);
    }

    /// The last element of a list that is too long is too large.
    pub(super) fn last_element(&mut self) {
        let mut run = |last: Vec<u8>, number: u32| {
            let mut values = vec![count(LAST); 4_999];
            values.push(last);
            let input = constant(b"", &list(time(MS)), &list_value(&values));
            let selector = list_mapping(&input, &cast_first(&time(NS), Strict));
            self.plan(&[], &[selector]).run(&[], number);
        };
        run(count(LAST), 45);
        run(NULL.to_vec(), 45);
        run(count(LAST + 1), 44);
    }

    /// A type that doubles with each mapping, up to the limit and past it.
    pub(super) fn doubling(&mut self) {
        fn doubled(level: u32, input: &[u8]) -> Vec<u8> {
            match level {
                0 => struct_mapping(input, &[position(0), position(0)]),
                _ => struct_mapping(input, &[doubled(level - 1, &position(0))]),
            }
        }
        for (levels, number) in [(1, 0), (8, 0), (11, 0), (12, 32), (15, 32)] {
            let nested = |inner: Type, _| Type::Struct(vec![column("", inner)]);
            let type_ = (0..levels).fold(int8(), nested);
            let double = |input: Vec<u8>, level| doubled(level, &input);
            let selector = (0..levels).rev().fold(position(0), double);
            let record = vec![1; levels as usize + 2];
            self.one(type_, selector).run(&record, number);
        }
    }

    /// Mappings one over another that turn a struct's fields round.
    pub(super) fn turned(&mut self) {
        let types = [int8(), leaf(3), leaf(4), leaf(5), leaf(15), list(int8())];
        let fields: Vec<Vec<u8>> = (1..6).chain([0]).map(position).collect();
        let turned =
            |times: u32| (0..times).fold(position(0), |input, _| struct_mapping(&input, &fields));
        let most = NESTING_LIMIT - 1;
        self.one(structure(&types), turned(most)).random();
        self.one(structure(&types), turned(most + 1)).run(&NULL, 30);
        let elements = list_mapping(&position(0), &turned(most - 1));
        self.one(list(structure(&types)), elements).random();
        // A field fewer with each mapping.
        let fewer = |input: Vec<u8>, count: usize| struct_mapping(&input, &fields[..count]);
        let selector = (0..6).rev().fold(position(0), fewer);
        self.one(structure(&types), selector).random();
    }
}
