//! Floats, integers and decimals as text that is read back to the same bits.

use std::cmp::Ordering;

/// A float of a width in bytes: the shortest decimal that is read back to it, `inf`, `nan`, or of other NaNs the bits.
pub fn float_text(bits: u64, width: u8) -> String {
    let value = float_value(bits, width);
    if value.is_nan() {
        let digits = usize::from(width) * 2;
        return match bits == not_a_number(width) {
            true => "nan".to_string(),
            false => format!("bits(0x{bits:0digits$x})"),
        };
    }
    match width {
        2 => half_text(bits as u16),
        4 => format!("{:?}", f32::from_bits(bits as u32)),
        _ => format!("{:?}", f64::from_bits(bits)),
    }
}

/// The bits of a float's text.
pub fn float_bits(text: &str, width: u8) -> Result<u64, String> {
    let magnitude = text.strip_prefix(['-', '+']).unwrap_or(text);
    let sign = u64::from(text.starts_with('-')) << (8 * width - 1);
    match magnitude {
        "nan" if magnitude == text => return Ok(not_a_number(width)),
        "inf" => return Ok(sign | infinity(width)),
        _ => {}
    }
    let decimal = Decimal::of(magnitude).ok_or_else(|| format!("`{text}` is no number"))?;
    let bits = match width {
        2 => u64::from(half_of(&decimal, magnitude)),
        4 => magnitude
            .parse::<f32>()
            .map_or(0, |value| u64::from(value.to_bits())),
        _ => magnitude.parse::<f64>().map_or(0, f64::to_bits),
    };
    match bits == infinity(width) {
        true => Err(format!(
            "`{text}` is too large for a float{}",
            8 * u32::from(width)
        )),
        false => Ok(sign | bits),
    }
}

/// The value of a float, exactly.
fn float_value(bits: u64, width: u8) -> f64 {
    match width {
        2 => half_value(bits as u16),
        4 => f64::from(f32::from_bits(bits as u32)),
        _ => f64::from_bits(bits),
    }
}

fn infinity(width: u8) -> u64 {
    match width {
        2 => 0x7C00,
        4 => u64::from(f32::INFINITY.to_bits()),
        _ => f64::INFINITY.to_bits(),
    }
}

/// The NaN that conversions give.
fn not_a_number(width: u8) -> u64 {
    match width {
        2 => 0x7E00,
        4 => 0x7FC0_0000,
        _ => 0x7FF8_0000_0000_0000,
    }
}

fn half_value(bits: u16) -> f64 {
    let (exponent, fraction) = (i32::from(bits >> 10 & 0x1F), f64::from(bits & 0x3FF));
    let magnitude = match exponent {
        0 => fraction * 2f64.powi(-24),
        0x1F if fraction == 0.0 => f64::INFINITY,
        0x1F => f64::NAN,
        _ => (1024.0 + fraction) * 2f64.powi(exponent - 25),
    };
    if bits >> 15 == 1 {
        -magnitude
    } else {
        magnitude
    }
}

/// The float16 below or at a magnitude, and how far the magnitude is on the way to the next, from 0 to below 1.
fn half_below(value: f64) -> (u16, f64) {
    let exponent = ((value.to_bits() >> 52) as i32 - 1023).max(-14);
    let scaled = value * 2f64.powi(10 - exponent);
    let whole = scaled.floor();
    let bits = ((exponent + 14) << 10) + whole as i32;
    (bits as u16, scaled - whole)
}

/// The nearest float16, ties to even. A decimal that is so near to a tie that its float64 is the tie is compared with
/// it digit by digit.
fn half_of(decimal: &Decimal, text: &str) -> u16 {
    let value: f64 = text.parse().unwrap_or(f64::INFINITY);
    if value >= 65_536.0 {
        return 0x7C00;
    }
    let (below, rest) = half_below(value);
    let order = match rest.partial_cmp(&0.5) {
        Some(Ordering::Equal) => {
            let tie = Decimal::of(&format!("{value:.40}"))
                .map_or(Ordering::Equal, |tie| decimal.compare(&tie));
            let even = if below % 2 == 0 {
                Ordering::Less
            } else {
                Ordering::Greater
            };
            tie.then(even)
        }
        order => order.unwrap_or(Ordering::Less),
    };
    below + u16::from(order == Ordering::Greater)
}

/// The value where five digits say it, else the shortest decimal that is nearer to this float16 than to any other.
fn half_text(bits: u16) -> String {
    let value = half_value(bits);
    if format!("{value:.4e}").parse() == Ok(value) {
        return format!("{value:?}");
    }
    let read = |text: &str| float_bits(text, 2) == Ok(u64::from(bits));
    (0..17)
        .map(|digits| format!("{value:.digits$e}"))
        .find(|text| read(text))
        .and_then(|text| text.parse::<f64>().ok())
        .map_or_else(|| format!("{value:?}"), |shortest| format!("{shortest:?}"))
}

/// A decimal's digits without zeros at the ends, and how many of them stand before the point.
struct Decimal {
    digits: String,
    point: i64,
}

impl Decimal {
    /// `12`, `12.5`, `1.25e-3`, without sign.
    fn of(text: &str) -> Option<Decimal> {
        let (mantissa, exponent) = text.split_once(['e', 'E']).unwrap_or((text, "0"));
        let exponent = match exponent.strip_prefix(['-', '+']).unwrap_or(exponent) {
            digits if is_digits(digits) => {
                exponent
                    .parse::<i64>()
                    .unwrap_or(if exponent.starts_with('-') {
                        -1_000_000
                    } else {
                        1_000_000
                    })
            }
            _ => return None,
        };
        let (whole, part) = mantissa.split_once('.').unwrap_or((mantissa, "0"));
        if !is_digits(whole) || !is_digits(part) {
            return None;
        }
        let all = format!("{whole}{part}");
        let digits = all.trim_start_matches('0');
        let point = whole.len() as i64 - (all.len() - digits.len()) as i64 + exponent;
        let digits = digits.trim_end_matches('0').to_string();
        Some(Decimal { digits, point })
    }

    fn compare(&self, other: &Decimal) -> Ordering {
        let zero = self
            .digits
            .is_empty()
            .cmp(&other.digits.is_empty())
            .reverse();
        zero.then(self.point.cmp(&other.point))
            .then(self.digits.cmp(&other.digits))
    }
}

fn is_digits(text: &str) -> bool {
    !text.is_empty() && text.bytes().all(|byte| byte.is_ascii_digit())
}

/// A whole number: decimal or `0x` hexadecimal, with `_` between digits where one likes, and a sign.
pub fn whole(text: &str) -> Option<i128> {
    let (sign, magnitude) = match text.strip_prefix('-') {
        Some(rest) => (-1, rest),
        None => (1, text.strip_prefix('+').unwrap_or(text)),
    };
    let (radix, digits) = match magnitude.strip_prefix("0x") {
        Some(rest) => (16, rest),
        None => (10, magnitude),
    };
    let plain: String = digits.chars().filter(|letter| *letter != '_').collect();
    let fits = digits.chars().next()?.is_digit(radix)
        && plain.chars().all(|letter| letter.is_digit(radix));
    let number = fits
        .then(|| i128::from_str_radix(&plain, radix).ok())
        .flatten()?;
    Some(sign * number)
}

/// A decimal of a scale, without its point: `-0.005` of scale 3 is -5.
pub fn decimal_number(text: &str, scale: u8) -> Result<i128, String> {
    let wrong = || format!("`{text}` is no decimal number");
    let magnitude = text.strip_prefix(['-', '+']).unwrap_or(text);
    let (units, part) = magnitude.split_once('.').unwrap_or((magnitude, "0"));
    if !is_digits(units) || !is_digits(part) {
        return Err(wrong());
    }
    let kept = part.trim_end_matches('0');
    if kept.len() > usize::from(scale) {
        return Err(format!(
            "`{text}` has more than {scale} digits after its point"
        ));
    }
    let digits = format!("{units}{kept:0<width$}", width = usize::from(scale));
    let number: i128 = digits.parse().map_err(|_| wrong())?;
    Ok(if text.starts_with('-') {
        -number
    } else {
        number
    })
}

/// The same as text, with all digits of the scale.
pub fn decimal_text(number: i128, scale: u8) -> String {
    let scale = usize::from(scale);
    let digits = format!("{:0width$}", number.unsigned_abs(), width = scale + 1);
    let (units, part) = digits.split_at(digits.len() - scale);
    let point = if scale == 0 { "" } else { "." };
    let sign = if number < 0 { "-" } else { "" };
    format!("{sign}{units}{point}{part}")
}

#[cfg(test)]
mod tests {
    use super::*;

    #[test]
    fn every_half_there_and_back() {
        for bits in 0..=u16::MAX {
            let text = float_text(u64::from(bits), 2);
            if !text.starts_with("bits") {
                assert_eq!(float_bits(&text, 2), Ok(u64::from(bits)), "{text}");
            }
        }
        for (bits, text) in [
            (0, "0.0"),
            (0x8000, "-0.0"),
            (1, "6e-8"),
            (0x3C00, "1.0"),
            (0x7BFF, "65504.0"),
        ] {
            assert_eq!(float_text(bits, 2), text);
        }
    }

    #[test]
    fn halves_are_rounded_once() {
        let tie = "1.00048828125";
        assert_eq!(float_bits(tie, 2), Ok(0x3C00));
        assert_eq!(
            float_bits(&format!("{tie}00000000000000000001"), 2),
            Ok(0x3C01)
        );
        assert_eq!(float_bits("1.00146484374999999999999999999", 2), Ok(0x3C01));
        assert_eq!(float_bits("1.00146484375", 2), Ok(0x3C02));
        assert_eq!(float_bits("65519.99", 2), Ok(0x7BFF));
        assert!(float_bits("65520", 2).is_err());
        assert_eq!(float_bits("2.98e-8", 2), Ok(0));
        assert_eq!(float_bits("2.99e-8", 2), Ok(1));
    }

    #[test]
    fn wider_floats_there_and_back() {
        for bits in [
            0,
            1,
            0x8000_0001,
            0x3DCC_CCCD,
            0x7F7F_FFFF,
            0x7F80_0000,
            0xFF80_0000,
            0x7FC0_0000,
        ] {
            assert_eq!(float_bits(&float_text(bits, 4), 4), Ok(bits));
            let bits = bits << 32 | 0x1234_5678;
            let text = float_text(bits, 8);
            assert!(
                text.starts_with("bits") || float_bits(&text, 8) == Ok(bits),
                "{text}"
            );
        }
        assert_eq!(float_text(0x7FC0_0001, 4), "bits(0x7fc00001)");
        for text in [
            "1e999", "1..2", "", "-", "1e", "0x10", "infinity", "NaN", "-nan", "1_0",
        ] {
            assert!(float_bits(text, 8).is_err(), "{text}");
        }
    }

    #[test]
    fn whole_numbers() {
        for (text, number) in [
            ("0", 0),
            ("-12", -12),
            ("+1_000", 1000),
            ("0xFf", 255),
            ("-0x8_0", -128),
        ] {
            assert_eq!(whole(text), Some(number));
        }
        for text in ["", "-", "_1", "1.0", "0x", "0xg", "1e3", "--1"] {
            assert_eq!(whole(text), None, "{text}");
        }
    }

    #[test]
    fn decimals_with_their_point() {
        for (number, scale, text) in [
            (35125, 3, "35.125"),
            (-5, 3, "-0.005"),
            (7, 0, "7"),
            (0, 2, "0.00"),
        ] {
            assert_eq!(decimal_text(number, scale), text);
            assert_eq!(decimal_number(text, scale), Ok(number));
        }
        assert_eq!(decimal_number("35", 3), Ok(35000));
        assert_eq!(decimal_number("35.1000", 1), Ok(351));
        for text in ["35.12", "", "1.", ".5", "1e3", "--1", "1.2.3"] {
            assert!(decimal_number(text, 1).is_err(), "{text}");
        }
    }
}
