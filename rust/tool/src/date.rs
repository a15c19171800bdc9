//! Dates.

use std::time::{SystemTime, UNIX_EPOCH};

use crate::failure::Failure;

fn days_of(month: u32, year: i64) -> u32 {
    let leap = year % 4 == 0 && (year % 100 != 0 || year % 400 == 0);
    match month {
        2 => 28 + u32::from(leap),
        4 | 6 | 9 | 11 => 30,
        _ => 31,
    }
}

/// The date so many days after 1970-01-01.
fn date_after(mut days: u64) -> String {
    let (mut year, mut month) = (1970, 1);
    while days >= days_of(month, year).into() {
        days -= u64::from(days_of(month, year));
        (year, month) = if month == 12 { (year + 1, 1) } else { (year, month + 1) };
    }
    format!("{year:04}-{month:02}-{:02}", days + 1)
}

/// Today's date, by Greenwich.
fn today() -> String {
    let seconds = SystemTime::now().duration_since(UNIX_EPOCH).map_or(0, |passed| passed.as_secs());
    date_after(seconds / 86_400)
}

/// The parts of a date that there is.
fn parts(text: &str) -> Option<(i64, u32, u32)> {
    let digits =
        |part: &str, n| (part.len() == n && part.bytes().all(|b| b.is_ascii_digit())).then(|| part.parse().ok())?;
    let [year, month, day] = text.split('-').collect::<Vec<_>>()[..] else {
        return None;
    };
    let (year, month, day) = (digits(year, 4)?, digits(month, 2)?, digits(day, 2)?);
    let (month, day) = (month as u32, day as u32);
    ((1..=12).contains(&month) && (1..=days_of(month, year)).contains(&day)).then_some((year, month, day))
}

/// A date that is given, or today's.
pub fn date(given: Option<&str>) -> Result<String, Failure> {
    match given {
        None => Ok(today()),
        Some(text) if parts(text).is_some() => Ok(text.to_string()),
        Some(text) => Err(Failure::Usage(format!("--date: '{text}' is no date such as 2026-11-20"))),
    }
}

#[cfg(test)]
mod tests {
    use super::*;

    #[test]
    fn days_become_dates() {
        for (days, text) in [(0, "1970-01-01"), (59, "1970-03-01"), (789, "1972-02-29"), (20_777, "2026-11-20")] {
            assert_eq!(date_after(days), text);
        }
    }

    #[test]
    fn only_dates_are_dates() {
        for text in ["2026-11-20", "2024-02-29", "2000-02-29"] {
            assert!(date(Some(text)).is_ok_and(|date| date == text), "{text}");
        }
        for text in
            ["2026-02-29", "1900-02-29", "2026-13-01", "2026-00-01", "2026-1-01", "20-11-2026", "", "2026-11-2x"]
        {
            assert!(date(Some(text)).is_err(), "{text}");
        }
    }
}
