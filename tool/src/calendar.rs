//! Days and counts since 1970-01-01 as calendar times, by the Gregorian calendar without end on both sides.

use crate::form::Unit;

const A_DAY: i64 = 86_400;

/// `2023-11-14`; years past 9999 or before 0 have a sign.
pub fn date_text(days: i64) -> String {
    let (year, month, day) = civil(days);
    match year {
        0..=9999 => format!("{year:04}-{month:02}-{day:02}"),
        _ => format!("{year:+05}-{month:02}-{day:02}"),
    }
}

/// `2023-11-14T22:13:20.000`, with all the digits of the unit.
pub fn time_text(count: i64, unit: Unit) -> String {
    let (seconds, part) = (
        count.div_euclid(unit.a_second()),
        count.rem_euclid(unit.a_second()),
    );
    let (days, second) = (seconds.div_euclid(A_DAY), seconds.rem_euclid(A_DAY));
    let (hour, minute, second) = (second / 3600, second / 60 % 60, second % 60);
    let (date, digits) = (date_text(days), unit.digits());
    format!("{date}T{hour:02}:{minute:02}:{second:02}.{part:0digits$}")
}

/// The days of a date.
pub fn date_days(text: &str) -> Result<i64, String> {
    let wrong = || format!("`{text}` is no date such as 2023-11-14");
    let (sign, rest) = match text.strip_prefix(['-', '+']) {
        Some(rest) => (if text.starts_with('-') { -1 } else { 1 }, rest),
        None => (1, text),
    };
    let parts: Vec<&str> = rest.split('-').collect();
    let [year, month, day] = parts[..] else {
        return Err(wrong());
    };
    let sizes = (4..=9).contains(&year.len()) && month.len() == 2 && day.len() == 2;
    let (year, month, day) = (digits(year), digits(month), digits(day));
    let (Some(year), Some(month), Some(day), true) = (year, month, day, sizes) else {
        return Err(wrong());
    };
    let days = days_of(sign * year, month, day);
    match civil(days) == (sign * year, month, day) {
        true => Ok(days),
        false => Err(format!("there is no day {text}")),
    }
}

/// The count of a date-time. One of a type with zone ends in `Z` or an offset such as `+01:00`, any other in neither.
pub fn time_count(text: &str, unit: Unit, zoned: bool) -> Result<i64, String> {
    let wrong = || {
        let end = if zoned { "Z" } else { "" };
        format!("`{text}` is no date-time such as 2023-11-14T22:13:20.5{end}")
    };
    let (date, time) = text.split_once('T').ok_or_else(wrong)?;
    let (time, offset) = split_offset(time);
    let offset = match (offset, zoned) {
        (Some(offset), true) => offset_seconds(offset).ok_or_else(wrong)?,
        (None, false) => 0,
        (Some(_), false) => {
            return Err(format!("`{text}` has a zone, which its type does not have"));
        }
        (None, true) => {
            return Err(format!(
                "`{text}` needs a `Z` or an offset: its type has a zone"
            ));
        }
    };
    let (clock, part) = time.split_once('.').unwrap_or((time, "0"));
    let second = clock_seconds(clock).ok_or_else(wrong)?;
    let part = part_count(part, unit).ok_or_else(wrong)??;
    let seconds = date_days(date)? * A_DAY + second - offset;
    let count = i128::from(seconds) * i128::from(unit.a_second()) + i128::from(part);
    let short = || format!("`{text}` is out of reach of 64 bits of {}", unit.name());
    i64::try_from(count).map_err(|_| short())
}

/// A time without its offset, and that.
fn split_offset(time: &str) -> (&str, Option<&str>) {
    match time.find(['Z', '+', '-']) {
        Some(at) => (&time[..at], Some(&time[at..])),
        None => (time, None),
    }
}

fn offset_seconds(offset: &str) -> Option<i64> {
    if offset == "Z" {
        return Some(0);
    }
    let sign = if offset.starts_with('-') { -1 } else { 1 };
    let (hours, minutes) = offset.get(1..)?.split_once(':')?;
    Some(sign * (two_digits(hours, 23)? * 3600 + two_digits(minutes, 59)? * 60))
}

fn clock_seconds(clock: &str) -> Option<i64> {
    let parts: Vec<&str> = clock.split(':').collect();
    let [hour, minute, second] = parts[..] else {
        return None;
    };
    Some(two_digits(hour, 23)? * 3600 + two_digits(minute, 59)? * 60 + two_digits(second, 59)?)
}

/// A fraction of a second as a count; none where it is no number.
fn part_count(part: &str, unit: Unit) -> Option<Result<i64, String>> {
    if part.is_empty() || !part.bytes().all(|byte| byte.is_ascii_digit()) {
        return None;
    }
    let kept = part.trim_end_matches('0');
    if kept.len() > unit.digits() {
        return Some(Err(format!("`.{part}` is finer than {}", unit.name())));
    }
    digits(&format!("{kept:0<width$}", width = unit.digits())).map(Ok)
}

fn two_digits(text: &str, most: i64) -> Option<i64> {
    let number = digits(text)?;
    (text.len() == 2 && number <= most).then_some(number)
}

fn digits(text: &str) -> Option<i64> {
    let plain =
        !text.is_empty() && text.len() <= 18 && text.bytes().all(|byte| byte.is_ascii_digit());
    plain.then(|| text.parse().ok()).flatten()
}

/// Days of 400 years, which begin in March so that the leap day is the last.
const AN_ERA: i64 = 146_097;

fn days_of(year: i64, month: i64, day: i64) -> i64 {
    let year = year - i64::from(month <= 2);
    let (era, year) = (year.div_euclid(400), year.rem_euclid(400));
    let day = (153 * ((month + 9) % 12) + 2) / 5 + day - 1;
    era * AN_ERA + year * 365 + year / 4 - year / 100 + day - 719_468
}

fn civil(days: i64) -> (i64, i64, i64) {
    let days = days + 719_468;
    let (era, day) = (days.div_euclid(AN_ERA), days.rem_euclid(AN_ERA));
    let year = (day - day / 1460 + day / 36_524 - day / 146_096) / 365;
    let day = day - (365 * year + year / 4 - year / 100);
    let month = (5 * day + 2) / 153;
    let day = day - (153 * month + 2) / 5 + 1;
    let month = if month < 10 { month + 3 } else { month - 9 };
    (era * 400 + year + i64::from(month <= 2), month, day)
}

#[cfg(test)]
mod tests {
    use super::*;

    #[test]
    fn dates_there_and_back() {
        for days in (-1_000_000..1_000_000)
            .step_by(17)
            .chain([i32::MIN.into(), i32::MAX.into()])
        {
            assert_eq!(date_days(&date_text(days)), Ok(days));
        }
        assert_eq!(date_text(0), "1970-01-01");
        assert_eq!(date_text(-719_528), "0000-01-01");
        assert_eq!(date_text(-719_529), "-0001-12-31");
        assert_eq!(date_text(2_932_897), "+10000-01-01");
        assert!(date_days("2023-02-29").is_err());
        assert!(date_days("2024-02-29").is_ok());
        assert!(date_days("24-02-29").is_err());
    }

    #[test]
    fn times_there_and_back() {
        for unit in Unit::ALL {
            for count in [
                0,
                -1,
                1,
                i64::MIN,
                i64::MAX,
                1_700_000_000_123,
                -86_400_000_000_001,
            ] {
                let text = time_text(count, unit);
                assert_eq!(time_count(&text, unit, false), Ok(count), "{text}");
                assert_eq!(time_count(&format!("{text}Z"), unit, true), Ok(count));
            }
        }
        assert_eq!(time_text(-1, Unit::Milliseconds), "1969-12-31T23:59:59.999");
    }

    #[test]
    fn times_with_zone() {
        let ms = Unit::Milliseconds;
        assert_eq!(time_count("1970-01-01T01:00:00+01:00", ms, true), Ok(0));
        assert_eq!(
            time_count("1970-01-01T00:00:00.5-00:30", ms, true),
            Ok(1_800_500)
        );
        for (text, zoned) in [
            ("1970-01-01T00:00:00Z", false),
            ("1970-01-01T00:00:00", true),
            ("1970-01-01T00:00:00.0005", false),
            ("1970-01-01T24:00:00", false),
            ("1970-01-01T00:00", false),
            ("1970-01-01T00:00:00.", false),
            ("éT00:00:00.éééééééééé", false),
            ("+999999999-01-01T00:00:00", false),
        ] {
            assert!(time_count(text, ms, zoned).is_err(), "{text}");
        }
        assert_eq!(time_count("1970-01-01T00:00:00.0010", ms, false), Ok(1));
    }
}
