//! Dates and times.

/// The number of so many digits at a place, and what stands behind them.
fn number(text: &str, length: usize) -> Option<(u32, &str)> {
    let digits = text.get(..length)?;
    if !digits.bytes().all(|byte| byte.is_ascii_digit()) {
        return None;
    }
    Some((digits.parse().ok()?, &text[length..]))
}

fn month_length(year: u32, month: u32) -> Option<u32> {
    let is_leap = year % 4 == 0 && (year % 100 != 0 || year % 400 == 0);
    match month {
        1 | 3 | 5 | 7 | 8 | 10 | 12 => Some(31),
        4 | 6 | 9 | 11 => Some(30),
        2 if is_leap => Some(29),
        2 => Some(28),
        _ => None,
    }
}

/// What stands behind a date, where there is one.
fn behind_date(text: &str) -> Option<&str> {
    let (year, rest) = number(text, 4)?;
    let (month, rest) = number(rest.strip_prefix('-')?, 2)?;
    let (day, rest) = number(rest.strip_prefix('-')?, 2)?;
    (1..=month_length(year, month)?)
        .contains(&day)
        .then_some(rest)
}

/// What stands behind an hour and a minute.
fn behind_minutes(text: &str) -> Option<&str> {
    let (hour, rest) = number(text, 2)?;
    let (minute, rest) = number(rest.strip_prefix(':')?, 2)?;
    (hour < 24 && minute < 60).then_some(rest)
}

/// What stands behind a time of day, whose seconds may be left out.
fn behind_clock(text: &str) -> Option<&str> {
    let rest = behind_minutes(text)?;
    let Some(seconds) = rest.strip_prefix(':') else {
        return Some(rest);
    };
    let (second, rest) = number(seconds, 2)?;
    if second > 60 {
        return None;
    }
    let Some(fraction) = rest.strip_prefix('.') else {
        return Some(rest);
    };
    let behind = fraction.trim_start_matches(|digit: char| digit.is_ascii_digit());
    (behind.len() < fraction.len()).then_some(behind)
}

fn is_offset(text: &str) -> bool {
    matches!(text, "" | "Z" | "z")
        || text.strip_prefix(['+', '-']).and_then(behind_minutes) == Some("")
}

pub fn is_date(text: &str) -> bool {
    behind_date(text) == Some("")
}

/// Whether a text is a date, a time of day, or both, with or without an offset.
pub fn is_time(text: &str) -> bool {
    match behind_date(text) {
        None => behind_clock(text) == Some(""),
        Some("") => true,
        Some(rest) => rest
            .strip_prefix(['T', 't', ' '])
            .and_then(behind_clock)
            .is_some_and(is_offset),
    }
}
