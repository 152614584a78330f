//! Tables, and what may be added to which.

use super::{NotToml, Parsed};
use std::collections::btree_map::{BTreeMap, Entry};

pub enum Value {
    Text(String),
    Whole(i64),
    /// A truth value, a number that isn't whole, or a time.
    Other,
    Array(Vec<Value>),
    /// The tables of the headers `[[key]]`.
    Tables(Vec<Table>),
    Table(Table),
}

/// How a table came to be, which decides what may still be added to it.
#[derive(Clone, Copy, PartialEq, Eq)]
enum Made {
    /// A header of its own.
    ByHeader,
    /// The header of a table within it.
    ByInnerHeader,
    /// A dotted key.
    ByDottedKey,
    /// It is a value, and stays as it is.
    Inline,
}

pub struct Table {
    pub entries: BTreeMap<String, Value>,
    made: Made,
}

impl Table {
    fn new(made: Made) -> Table {
        Table {
            entries: BTreeMap::new(),
            made,
        }
    }

    pub fn root() -> Table {
        Table::new(Made::ByHeader)
    }

    pub fn inline() -> Table {
        Table::new(Made::Inline)
    }

    /// Adds a value under a key. The tables that the key names before its end are made where they
    /// aren't there.
    pub fn assign(&mut self, key: &[String], value: Value) -> Parsed<()> {
        let Some((last, path)) = key.split_last() else {
            return Err(NotToml);
        };
        let mut table = self;
        for part in path {
            table = table.inner(part)?;
        }
        table.add(last, value)
    }

    fn add(&mut self, part: &str, value: Value) -> Parsed<()> {
        match self.entries.entry(part.to_string()) {
            Entry::Occupied(_) => Err(NotToml),
            Entry::Vacant(place) => {
                place.insert(value);
                Ok(())
            }
        }
    }

    /// The table that a dotted key goes into.
    fn inner(&mut self, part: &str) -> Parsed<&mut Table> {
        let made = Value::Table(Table::new(Made::ByDottedKey));
        match self.entries.entry(part.to_string()).or_insert(made) {
            Value::Table(table)
                if matches!(table.made, Made::ByDottedKey | Made::ByInnerHeader) =>
            {
                table.made = Made::ByDottedKey;
                Ok(table)
            }
            _ => Err(NotToml),
        }
    }

    /// The table that a header goes through, or the last one of an array.
    fn step(&mut self, part: &str) -> Parsed<&mut Table> {
        let made = Value::Table(Table::new(Made::ByInnerHeader));
        match self.entries.entry(part.to_string()).or_insert(made) {
            Value::Table(table) if table.made != Made::Inline => Ok(table),
            Value::Tables(tables) => tables.last_mut().ok_or(NotToml),
            _ => Err(NotToml),
        }
    }

    /// The table of a section, whose header was taken before.
    pub fn section(&mut self, key: &[String]) -> Parsed<&mut Table> {
        let mut table = self;
        for part in key {
            table = table.step(part)?;
        }
        Ok(table)
    }

    /// Begins the section of a header `[key]`.
    pub fn begin_table(&mut self, key: &[String]) -> Parsed<()> {
        let (last, path) = key.split_last().ok_or(NotToml)?;
        let outer = self.section(path)?;
        match outer.entries.get_mut(last) {
            None => outer.add(last, Value::Table(Table::new(Made::ByHeader))),
            Some(Value::Table(table)) if table.made == Made::ByInnerHeader => {
                table.made = Made::ByHeader;
                Ok(())
            }
            Some(_) => Err(NotToml),
        }
    }

    /// Begins the section of a header `[[key]]`.
    pub fn begin_array_item(&mut self, key: &[String]) -> Parsed<()> {
        let (last, path) = key.split_last().ok_or(NotToml)?;
        let outer = self.section(path)?;
        let made = Table::new(Made::ByHeader);
        match outer.entries.get_mut(last) {
            None => outer.add(last, Value::Tables(vec![made])),
            Some(Value::Tables(tables)) => {
                tables.push(made);
                Ok(())
            }
            Some(_) => Err(NotToml),
        }
    }
}
