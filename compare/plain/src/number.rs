//! Numbers and how they are converted: "Run" in document 01.

use crate::form::Leaf;

/// What the bits of a number mean.
#[derive(Clone, Copy, Debug, PartialEq, Eq)]
pub enum Kind {
    Boolean,
    /// With its width in bits, as the next two.
    Signed(u32),
    Unsigned(u32),
    Float(u32),
    Date,
    /// With its unit: 0 ns, 1 µs, 2 ms.
    Datetime(u8),
    /// With its precision; the point, at its scale, has no effect on the bits.
    Decimal(u8),
}

impl Kind {
    /// None for null and for what is text-like.
    pub fn of(leaf: &Leaf) -> Option<Kind> {
        Some(match leaf {
            Leaf::Plain(1) => Kind::Boolean,
            Leaf::Plain(code @ 2..=5) => Kind::Signed(8 << (code - 2)),
            Leaf::Plain(code @ 6..=9) => Kind::Unsigned(8 << (code - 6)),
            Leaf::Plain(code @ 10..=12) => Kind::Float(16 << (code - 10)),
            Leaf::Plain(13) => Kind::Date,
            Leaf::Plain(_) => return None,
            Leaf::Datetime { unit, .. } => Kind::Datetime(*unit),
            Leaf::Decimal { precision, .. } => Kind::Decimal(*precision),
        })
    }

    /// In bytes.
    pub fn width(self) -> usize {
        match self {
            Kind::Boolean => 1,
            Kind::Signed(bits) | Kind::Unsigned(bits) | Kind::Float(bits) => bits as usize / 8,
            Kind::Date => 4,
            Kind::Datetime(_) | Kind::Decimal(_) => 8,
        }
    }
}

#[derive(Clone, Copy, Debug, PartialEq, Eq)]
pub struct Number {
    pub kind: Kind,
    /// Zero above the kind's width.
    pub bits: u64,
}

/// A date-time is too large for a finer unit.
#[derive(Clone, Copy, Debug, PartialEq, Eq)]
pub struct Overflow;

impl Number {
    /// The number of that many little-endian bytes.
    pub fn from_bytes(kind: Kind, bytes: &[u8]) -> Number {
        let mut all = [0; 8];
        all[..bytes.len()].copy_from_slice(bytes);
        let bits = u64::from_le_bytes(all);
        Number { kind, bits }
    }

    pub fn write(self, bytes: &mut Vec<u8>) {
        bytes.extend(&self.bits.to_le_bytes()[..self.kind.width()]);
    }

    /// Converts between kinds that have a rule; others, and equal ones, keep the bits.
    pub fn convert(self, to: Kind) -> Result<Number, Overflow> {
        if self.kind == to {
            return Ok(self);
        }
        let bits = match (self.kind, to) {
            (Kind::Signed(_) | Kind::Unsigned(_), Kind::Signed(bits) | Kind::Unsigned(bits)) => {
                self.integer() as u64 & (u64::MAX >> (64 - bits))
            }
            // An integer that is not exact in 64 bits is past all that 16 bits hold.
            (Kind::Signed(_) | Kind::Unsigned(_), Kind::Float(bits)) => match bits {
                16 => half_of(self.integer() as f64).into(),
                32 => (self.integer() as f32).to_bits().into(),
                _ => (self.integer() as f64).to_bits(),
            },
            (Kind::Float(_), Kind::Float(bits)) => float_bits(self.float(), bits),
            (Kind::Datetime(from), Kind::Datetime(to)) => {
                change_unit(self.bits as i64, from, to)? as u64
            }
            _ => self.bits,
        };
        Ok(Number { kind: to, bits })
    }

    /// Whether a decimal's magnitude is below ten to the precision.
    pub fn is_within(self, precision: u8) -> bool {
        (self.bits as i64).unsigned_abs() < 10u64.pow(precision.into())
    }

    fn integer(self) -> i128 {
        match self.kind {
            Kind::Signed(bits) => {
                let unused = 64 - bits;
                ((self.bits << unused) as i64 >> unused).into()
            }
            _ => self.bits.into(),
        }
    }

    fn float(self) -> f64 {
        match self.kind {
            Kind::Float(16) => of_half(self.bits as u16),
            Kind::Float(32) => f32::from_bits(self.bits as u32).into(),
            _ => f64::from_bits(self.bits),
        }
    }
}

/// A count in another unit: a thousand of one is one of the next.
fn change_unit(count: i64, from: u8, to: u8) -> Result<i64, Overflow> {
    let factor = 1000i64.pow(from.abs_diff(to).into());
    if to < from {
        count.checked_mul(factor).ok_or(Overflow)
    } else {
        Ok(count.div_euclid(factor))
    }
}

/// The bits of the nearest float of that width; a NaN is positive with the top fraction bit set.
fn float_bits(value: f64, bits: u32) -> u64 {
    match (bits, value.is_nan()) {
        (16, true) => 0x7E00,
        (16, false) => half_of(value).into(),
        (32, true) => 0x7FC0_0000,
        (32, false) => (value as f32).to_bits().into(),
        (_, true) => 0x7FF8_0000_0000_0000,
        (_, false) => value.to_bits(),
    }
}

/// Two to the power of an exponent within a float64's normal range.
fn power_of_two(exponent: i32) -> f64 {
    f64::from_bits(((exponent + 1023) as u64) << 52)
}

/// A float16's value.
fn of_half(bits: u16) -> f64 {
    let fraction = f64::from(bits & 0x3FF);
    let magnitude = match i32::from(bits >> 10 & 0x1F) {
        0 => fraction * power_of_two(-24),
        31 if fraction == 0.0 => f64::INFINITY,
        31 => f64::NAN,
        exponent => (1024.0 + fraction) * power_of_two(exponent - 25),
    };
    if bits >> 15 == 1 {
        -magnitude
    } else {
        magnitude
    }
}

/// The nearest float16 of a value that is no NaN, ties to even.
fn half_of(value: f64) -> u16 {
    let sign = u16::from(value.is_sign_negative()) << 15;
    let magnitude = value.abs();
    // The midpoint above the largest finite value.
    if magnitude >= 65_520.0 {
        return sign | 0x7C00;
    }
    let exponent = (magnitude.to_bits() >> 52) as i32 - 1023;
    let bits = if exponent < -14 {
        (magnitude * power_of_two(24)).round_ties_even() as u16
    } else {
        // From 1,024 to 2,048: a carry raises the exponent.
        let fraction = (magnitude * power_of_two(10 - exponent)).round_ties_even() as u16;
        ((exponent + 14) as u16) * 1024 + fraction
    };
    sign | bits
}

#[cfg(test)]
mod tests {
    use super::*;

    fn converted(kind: Kind, bits: u64, to: Kind) -> Option<u64> {
        let number = Number { kind, bits }.convert(to);
        number.ok().map(|number| number.bits)
    }

    #[test]
    fn half_bits_come_back() {
        for bits in 0..=u16::MAX {
            let value = of_half(bits);
            if !value.is_nan() {
                assert_eq!(half_of(value), bits);
            }
        }
    }

    #[test]
    fn half_midpoints_go_to_even() {
        for bits in 0..0x7BFFu16 {
            let middle = (of_half(bits) + of_half(bits + 1)) / 2.0;
            assert_eq!(half_of(middle), bits + (bits & 1));
            assert_eq!(half_of(middle.next_down()), bits);
            assert_eq!(half_of(-middle.next_up()), 0x8000 | (bits + 1));
        }
        assert_eq!(half_of(65_520.0f64.next_down()), 0x7BFF);
        assert_eq!(half_of(-65_520.0), 0xFC00);
    }

    #[test]
    fn not_a_number() {
        assert_eq!(
            converted(Kind::Float(16), 0xFC01, Kind::Float(32)),
            Some(0x7FC0_0000)
        );
        assert_eq!(
            converted(Kind::Float(64), u64::MAX, Kind::Float(16)),
            Some(0x7E00)
        );
    }

    #[test]
    fn integers() {
        assert_eq!(
            converted(Kind::Signed(8), 0x80, Kind::Signed(32)),
            Some(0xFFFF_FF80)
        );
        assert_eq!(
            converted(Kind::Unsigned(8), 0x80, Kind::Signed(16)),
            Some(0x80)
        );
        assert_eq!(
            converted(Kind::Signed(64), 1 << 63, Kind::Float(32)),
            Some(0xDF00_0000)
        );
    }
}
