//! Whole numbers, and numbers that aren't.

use super::{NotToml, Parsed};

/// The digits of a number without the `_` between two of them, where they are digits of a radix.
fn digits(text: &str, radix: u32) -> Option<String> {
    let mut found = String::new();
    for part in text.split('_') {
        if part.is_empty() || !part.chars().all(|digit| digit.is_digit(radix)) {
            return None;
        }
        found.push_str(part);
    }
    Some(found)
}

/// Decimal digits, of which the first is no needless zero.
fn plain_digits(text: &str) -> Option<String> {
    digits(text, 10).filter(|digits| digits.len() == 1 || !digits.starts_with('0'))
}

fn without_sign(text: &str) -> &str {
    text.strip_prefix(['+', '-']).unwrap_or(text)
}

/// The whole number that a text spells, if it spells one. One that is too large isn't TOML.
pub fn whole_number(text: &str) -> Parsed<Option<i64>> {
    for (prefix, radix) in [("0x", 16), ("0o", 8), ("0b", 2)] {
        if let Some(rest) = text.strip_prefix(prefix) {
            let digits = digits(rest, radix).ok_or(NotToml)?;
            return i64::from_str_radix(&digits, radix)
                .map(Some)
                .map_err(|_| NotToml);
        }
    }
    let Some(digits) = plain_digits(without_sign(text)) else {
        return Ok(None);
    };
    let sign = if text.starts_with('-') { "-" } else { "" };
    format!("{sign}{digits}")
        .parse()
        .map(Some)
        .map_err(|_| NotToml)
}

/// Whether a text spells a number that isn't whole, and that an f64 holds.
pub fn is_float(text: &str) -> bool {
    let plain = without_sign(text);
    if matches!(plain, "inf" | "nan") {
        return true;
    }
    let (mantissa, exponent) = match plain.split_once(['e', 'E']) {
        Some((mantissa, exponent)) => (mantissa, Some(exponent)),
        None => (plain, None),
    };
    let (whole, fraction) = match mantissa.split_once('.') {
        Some((whole, fraction)) => (whole, Some(fraction)),
        None => (mantissa, None),
    };
    if fraction.is_none() && exponent.is_none() {
        return false;
    }
    let is_well_formed = plain_digits(whole).is_some()
        && fraction.is_none_or(|fraction| digits(fraction, 10).is_some())
        && exponent.is_none_or(|exponent| digits(without_sign(exponent), 10).is_some());
    is_well_formed
        && plain
            .replace('_', "")
            .parse::<f64>()
            .is_ok_and(f64::is_finite)
}
