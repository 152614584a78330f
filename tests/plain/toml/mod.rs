//! TOML 1.1: a text becomes a table, or isn't TOML. Written from the TOML specification.

mod lexis;
mod numbers;
mod strings;
mod tables;
mod times;
mod values;

pub use tables::{Table, Value};

/// The most parts of a key, and the most arrays and tables one within another.
const MOST_DEPTH: usize = 80;

/// What isn't TOML.
pub struct NotToml;

type Parsed<T> = Result<T, NotToml>;

/// The table of a text.
pub fn read(bytes: &[u8]) -> Parsed<Table> {
    let text = std::str::from_utf8(bytes).map_err(|_| NotToml)?;
    let text = text.strip_prefix('\u{feff}').unwrap_or(text);
    let mut scanner = lexis::Scanner::new(text);
    let mut root = Table::root();
    let mut section = Vec::new();
    while !scanner.is_at_end() {
        scanner.skip_blanks();
        match scanner.peek() {
            Some(b'[') => section = take_header(&mut scanner, &mut root)?,
            None | Some(b'#' | b'\n' | b'\r') => (),
            Some(_) => {
                let (key, value) = values::take_pair(&mut scanner, 0)?;
                root.section(&section)?.assign(&key, value)?;
            }
        }
        scanner.end_line()?;
    }
    Ok(root)
}

/// Takes `[key]` or `[[key]]`, and begins its section.
fn take_header(scanner: &mut lexis::Scanner, root: &mut Table) -> Parsed<Vec<String>> {
    scanner.expect(b'[')?;
    let is_array = scanner.takes(b'[');
    scanner.skip_blanks();
    let key = values::take_key(scanner)?;
    scanner.expect(b']')?;
    if is_array {
        scanner.expect(b']')?;
        root.begin_array_item(&key)?;
    } else {
        root.begin_table(&key)?;
    }
    Ok(key)
}
