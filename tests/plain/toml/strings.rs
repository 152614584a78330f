//! Texts in quotes.

use super::lexis::{is_plain, Scanner};
use super::{NotToml, Parsed};

/// A character by so many hex digits.
fn take_coded(scanner: &mut Scanner, length: usize) -> Parsed<char> {
    let digits = scanner.rest().get(..length).ok_or(NotToml)?;
    if !digits.bytes().all(|byte| byte.is_ascii_hexdigit()) {
        return Err(NotToml);
    }
    let code = u32::from_str_radix(digits, 16).map_err(|_| NotToml)?;
    scanner.take(length);
    char::from_u32(code).ok_or(NotToml)
}

/// The character that an escape stands for, behind its `\`.
fn take_escaped(scanner: &mut Scanner) -> Parsed<char> {
    let kind = scanner.peek().ok_or(NotToml)?;
    let plain = match kind {
        b'b' => '\u{8}',
        b't' => '\t',
        b'n' => '\n',
        b'f' => '\u{c}',
        b'r' => '\r',
        b'e' => '\u{1b}',
        b'"' => '"',
        b'\\' => '\\',
        b'x' | b'u' | b'U' => {
            scanner.take(1);
            let length = match kind {
                b'x' => 2,
                b'u' => 4,
                _ => 8,
            };
            return take_coded(scanner, length);
        }
        _ => return Err(NotToml),
    };
    scanner.take(1);
    Ok(plain)
}

pub fn take_basic(scanner: &mut Scanner) -> Parsed<String> {
    scanner.expect(b'"')?;
    let mut text = String::new();
    loop {
        text.push_str(scanner.take_while(|byte| is_plain(byte) && byte != b'"' && byte != b'\\'));
        if scanner.takes(b'"') {
            return Ok(text);
        }
        scanner.expect(b'\\')?;
        text.push(take_escaped(scanner)?);
    }
}

pub fn take_literal(scanner: &mut Scanner) -> Parsed<String> {
    scanner.expect(b'\'')?;
    let text = scanner.take_while(|byte| is_plain(byte) && byte != b'\'');
    scanner.expect(b'\'')?;
    Ok(text.to_string())
}

/// Takes a run of quotes within a long text. Answers whether it ended the text: its last three do,
/// and up to two before them are part of it.
fn take_quotes(scanner: &mut Scanner, quote: u8, text: &mut String) -> Parsed<bool> {
    let run = scanner.take_while(|byte| byte == quote);
    match run.len() {
        0..=2 => {
            text.push_str(run);
            Ok(false)
        }
        3..=5 => {
            text.push_str(&run[3..]);
            Ok(true)
        }
        _ => Err(NotToml),
    }
}

/// Takes a line's end behind a `\`, and all blanks and line ends behind it, if it is there.
fn takes_joined_lines(scanner: &mut Scanner) -> bool {
    let behind = scanner.rest().trim_start_matches([' ', '\t']);
    if !behind.starts_with('\n') && !behind.starts_with("\r\n") {
        return false;
    }
    loop {
        scanner.skip_blanks();
        if !scanner.takes_newline() {
            return true;
        }
    }
}

pub fn take_long_basic(scanner: &mut Scanner) -> Parsed<String> {
    scanner.take(3);
    scanner.takes_newline();
    let mut text = String::new();
    loop {
        text.push_str(scanner.take_while(|byte| is_plain(byte) && byte != b'"' && byte != b'\\'));
        if scanner.takes_newline() {
            text.push('\n');
        } else if scanner.peek() == Some(b'"') {
            if take_quotes(scanner, b'"', &mut text)? {
                return Ok(text);
            }
        } else {
            scanner.expect(b'\\')?;
            if !takes_joined_lines(scanner) {
                text.push(take_escaped(scanner)?);
            }
        }
    }
}

pub fn take_long_literal(scanner: &mut Scanner) -> Parsed<String> {
    scanner.take(3);
    scanner.takes_newline();
    let mut text = String::new();
    loop {
        text.push_str(scanner.take_while(|byte| is_plain(byte) && byte != b'\''));
        if scanner.takes_newline() {
            text.push('\n');
        } else if scanner.peek() == Some(b'\'') {
            if take_quotes(scanner, b'\'', &mut text)? {
                return Ok(text);
            }
        } else {
            return Err(NotToml);
        }
    }
}
