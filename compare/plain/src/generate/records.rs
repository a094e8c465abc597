//! Records that fit a layout, with the values at which conversions change among them, and records with decimals that
//! are too large or nulls where a value is required.

use crate::form::{Column, Leaf, Type};
use crate::number::Kind;
use crate::random::Random;

/// The shares, in percent, of what is not like the other values.
#[derive(Clone, Copy)]
pub struct Shares {
    pub nulls: u64,
    /// Nulls in required fields.
    pub missing: u64,
    /// Decimals that are too large for their precision.
    pub exceeding: u64,
}

/// A record of the columns; longer than the limit only where the layout leaves no choice.
pub fn record(random: &mut Random, columns: &[Column]) -> Vec<u8> {
    record_of(random, columns, 0, 0)
}

/// The same, but that a decimal may be too large.
pub fn exceeding_record(random: &mut Random, columns: &[Column]) -> Vec<u8> {
    record_of(random, columns, 30, 0)
}

/// The same, but that a required field may be null.
pub fn lacking_record(random: &mut Random, columns: &[Column]) -> Vec<u8> {
    let missing = random.pick(&[2, 20]);
    record_of(random, columns, 0, missing)
}

fn record_of(random: &mut Random, columns: &[Column], exceeding: u64, missing: u64) -> Vec<u8> {
    let mut bytes = Vec::new();
    let nulls = if random.percent(10) { 60 } else { 12 };
    let shares = Shares {
        nulls,
        missing,
        exceeding,
    };
    for column in columns {
        column_value(random, &mut bytes, column, shares);
    }
    bytes
}

/// A column's value: one that is required is seldom null.
fn column_value(random: &mut Random, bytes: &mut Vec<u8>, column: &Column, shares: Shares) {
    let share = match column.required {
        true => shares.missing,
        false => shares.nulls,
    };
    value_of(random, bytes, &column.type_, share, shares);
}

/// A value in the type's form, presence byte first.
pub fn value(random: &mut Random, bytes: &mut Vec<u8>, type_: &Type, shares: Shares) {
    value_of(random, bytes, type_, shares.nulls, shares);
}

/// The same, with another share of nulls at the top.
fn value_of(random: &mut Random, bytes: &mut Vec<u8>, type_: &Type, nulls: u64, shares: Shares) {
    // Arrays too wide for a record, and what would make it too long, are null.
    let wide = matches!(type_, Type::Array(width, _) if *width > 64);
    let none = *type_ == Type::Leaf(Leaf::Plain(0));
    if none || wide || bytes.len() > 8_000 || random.percent(nulls) {
        bytes.push(0);
        return;
    }
    bytes.push(1);
    match type_ {
        Type::Leaf(Leaf::Decimal { precision, .. }) if random.percent(shares.exceeding) => {
            bytes.extend(too_many_digits(random, *precision).to_le_bytes());
        }
        Type::Leaf(leaf) => leaf_bytes(random, bytes, leaf),
        Type::Struct(columns) => {
            for column in columns {
                column_value(random, bytes, column, shares);
            }
        }
        Type::List(element) => {
            let count = match random.below(40) {
                0 => random.below(40),
                _ => random.below(4),
            };
            bytes.extend((count as u16).to_le_bytes());
            for _ in 0..count {
                column_value(random, bytes, element, shares);
            }
        }
        Type::Array(width, element) => {
            for _ in 0..*width {
                column_value(random, bytes, element, shares);
            }
        }
    }
}

/// A present leaf's bytes.
pub fn leaf_bytes(random: &mut Random, bytes: &mut Vec<u8>, leaf: &Leaf) {
    match Kind::of(leaf) {
        Some(kind) => {
            let bits = number(random, kind);
            bytes.extend(&bits.to_le_bytes()[..kind.width()]);
        }
        None => {
            let length = match random.below(100) {
                0 => random.below(300),
                _ => random.below(6),
            };
            bytes.extend((length as u16).to_le_bytes());
            bytes.extend((0..length).map(|_| random.next() as u8));
        }
    }
}

fn number(random: &mut Random, kind: Kind) -> u64 {
    match kind {
        Kind::Boolean => random.below(2),
        Kind::Float(16) => random.next(),
        Kind::Float(32) => f32_bits(random).into(),
        Kind::Float(_) => f64_bits(random),
        Kind::Datetime(_) => count(random) as u64,
        Kind::Decimal(precision) => digits(random, precision) as u64,
        Kind::Signed(_) | Kind::Unsigned(_) | Kind::Date => integer(random),
    }
}

/// Near a power of two, or any.
fn integer(random: &mut Random) -> u64 {
    let near = random.below(9).wrapping_sub(4);
    match random.below(4) {
        0 => near,
        1 => random.next(),
        2 => (1u64 << random.below(64)).wrapping_add(near),
        // A tie, or almost, in some precision.
        _ => ((random.next() | 1 << 63) >> random.below(64) & !0 << random.below(64))
            .wrapping_add(near),
    }
}

/// A date-time: mostly one that every unit holds, sometimes at the edge of the finer ones.
fn count(random: &mut Random) -> i64 {
    let near = random.below(5) as i64 - 2;
    let sign = if random.percent(50) { 1 } else { -1 };
    let size = match random.below(60) {
        0..4 => i64::MAX / 1_000,
        4..8 => i64::MAX / 1_000_000,
        8 => i64::MAX - 2,
        9 => (random.next() >> 1) as i64 - 2,
        10..20 => random.below(3_000_000) as i64,
        20..30 => 1_000 * random.below(1_000_000) as i64,
        _ => random.below(9_000_000_000_000) as i64,
    };
    (size + near).checked_mul(sign).unwrap_or(i64::MIN)
}

/// Below ten to the precision in magnitude: the largest, near a smaller power of ten, or any.
fn digits(random: &mut Random, precision: u8) -> i64 {
    let power = |digits: u8| 10u64.pow(digits.into());
    let largest = power(precision) - 1;
    let smaller = power(random.below(u64::from(precision)) as u8);
    let magnitude = match random.below(4) {
        0 => largest,
        1 => smaller.wrapping_sub(random.below(2)),
        _ => random.below(largest + 1),
    } as i64;
    random.pick(&[magnitude, -magnitude])
}

/// The least magnitude that is too large, or a larger one.
fn too_many_digits(random: &mut Random, precision: u8) -> i64 {
    let least = 10i64.pow(precision.into());
    let more = random.below((i64::MAX - least) as u64 + 1) as i64;
    random.pick(&[least, -least, least + more, -least - more, i64::MIN])
}

/// Any bits, or a float near those of 16 bits.
fn f32_bits(random: &mut Random) -> u32 {
    match random.below(3) {
        0 => random.next() as u32,
        // Eleven bits of precision, and what decides a tie.
        1 => {
            let exponent = 127 - 27 + random.below(46) as u32;
            let fraction = (random.next() as u32 & 0x7FF) << 12;
            let tail = random.pick(&[0, 1, 0xFFF, 0x800]);
            (random.below(2) as u32) << 31 | exponent << 23 | fraction | tail
        }
        _ => {
            let special = [
                0,
                1,
                0x7F80_0000,
                0x7F80_0001,
                0x7FC0_0000,
                0x477F_EFFF,
                0x477F_F000,
                0x3300_0000,
            ];
            (random.below(2) as u32) << 31 | random.pick(&special)
        }
    }
}

/// Any bits, or a float near those of 32 or 16 bits.
fn f64_bits(random: &mut Random) -> u64 {
    let sign = random.below(2) << 63;
    match random.below(4) {
        0 => random.next(),
        1 => f64::from(f32::from_bits(f32_bits(random)))
            .to_bits()
            .wrapping_add(random.pick(&[0, 1, u64::MAX])),
        // Between two floats of 32 bits.
        2 => {
            let exponent = 1023 - 151 + random.below(281);
            let fraction = (random.next() & 0xFF_FFFF) << 28;
            sign | exponent << 52 | fraction | random.pick(&[0, 1])
        }
        _ => {
            sign | random.pick(&[
                0,
                1,
                0x7FF << 52,
                0x7FF << 52 | 1,
                0x47EF_FFFF_EFFF_FFFF,
                0x47EF_FFFF_F000_0000,
            ])
        }
    }
}
