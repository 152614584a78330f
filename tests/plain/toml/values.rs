//! Keys and values.

use super::lexis::Scanner;
use super::numbers::is_float;
use super::numbers::whole_number;
use super::strings;
use super::tables::{Table, Value};
use super::times::{is_date, is_time};
use super::{NotToml, Parsed, MOST_DEPTH};

/// One part of a key.
fn take_part(scanner: &mut Scanner) -> Parsed<String> {
    match scanner.peek() {
        Some(b'"') => strings::take_basic(scanner),
        Some(b'\'') => strings::take_literal(scanner),
        _ => {
            let is_bare = |byte: u8| byte.is_ascii_alphanumeric() || matches!(byte, b'_' | b'-');
            let part = scanner.take_while(is_bare);
            if part.is_empty() {
                Err(NotToml)
            } else {
                Ok(part.to_string())
            }
        }
    }
}

/// A key and the blanks behind it.
pub fn take_key(scanner: &mut Scanner) -> Parsed<Vec<String>> {
    let mut key = vec![take_part(scanner)?];
    scanner.skip_blanks();
    while scanner.takes(b'.') {
        scanner.skip_blanks();
        key.push(take_part(scanner)?);
        scanner.skip_blanks();
    }
    if key.len() > MOST_DEPTH {
        return Err(NotToml);
    }
    Ok(key)
}

/// A key, `=` and a value, which stands within so many arrays and tables.
pub fn take_pair(scanner: &mut Scanner, depth: usize) -> Parsed<(Vec<String>, Value)> {
    let key = take_key(scanner)?;
    scanner.expect(b'=')?;
    scanner.skip_blanks();
    Ok((key, take_value(scanner, depth)?))
}

fn take_value(scanner: &mut Scanner, depth: usize) -> Parsed<Value> {
    match scanner.peek().ok_or(NotToml)? {
        b'"' if scanner.rest().starts_with("\"\"\"") => {
            strings::take_long_basic(scanner).map(Value::Text)
        }
        b'"' => strings::take_basic(scanner).map(Value::Text),
        b'\'' if scanner.rest().starts_with("'''") => {
            strings::take_long_literal(scanner).map(Value::Text)
        }
        b'\'' => strings::take_literal(scanner).map(Value::Text),
        b'[' | b'{' if depth == MOST_DEPTH => Err(NotToml),
        b'[' => take_array(scanner, depth + 1),
        b'{' => take_inline_table(scanner, depth + 1),
        _ => scalar(take_scalar(scanner)),
    }
}

/// The characters of a number, a truth value or a time. Between a date and a time one space may
/// stand.
fn take_scalar<'a>(scanner: &mut Scanner<'a>) -> &'a str {
    let all = scanner.rest();
    let is_part =
        |byte: u8| byte.is_ascii_alphanumeric() || matches!(byte, b'_' | b'+' | b'-' | b'.' | b':');
    let first = scanner.take_while(is_part);
    let behind = scanner.rest().as_bytes();
    let goes_on = behind.first() == Some(&b' ') && behind.get(1).is_some_and(u8::is_ascii_digit);
    if !is_date(first) || !goes_on {
        return first;
    }
    scanner.take(1);
    let second = scanner.take_while(is_part);
    &all[..first.len() + 1 + second.len()]
}

fn scalar(text: &str) -> Parsed<Value> {
    if let Some(number) = whole_number(text)? {
        return Ok(Value::Whole(number));
    }
    if matches!(text, "true" | "false") || is_float(text) || is_time(text) {
        return Ok(Value::Other);
    }
    Err(NotToml)
}

fn take_array(scanner: &mut Scanner, depth: usize) -> Parsed<Value> {
    scanner.expect(b'[')?;
    let mut values = Vec::new();
    loop {
        scanner.skip_lines();
        if scanner.takes(b']') {
            return Ok(Value::Array(values));
        }
        values.push(take_value(scanner, depth)?);
        scanner.skip_lines();
        if !scanner.takes(b',') {
            scanner.expect(b']')?;
            return Ok(Value::Array(values));
        }
    }
}

fn take_inline_table(scanner: &mut Scanner, depth: usize) -> Parsed<Value> {
    scanner.expect(b'{')?;
    let mut table = Table::inline();
    loop {
        scanner.skip_lines();
        if scanner.takes(b'}') {
            return Ok(Value::Table(table));
        }
        let (key, value) = take_pair(scanner, depth)?;
        table.assign(&key, value)?;
        scanner.skip_lines();
        if !scanner.takes(b',') {
            scanner.expect(b'}')?;
            return Ok(Value::Table(table));
        }
    }
}
