//! A file from which items are taken field by field.

use std::fs::File;
use std::io::{self, Read};
use std::ops::RangeInclusive;

/// The bytes that are read at a time.
const PIECE: usize = 1 << 16;

/// Why an item isn't taken to its end.
pub enum Stop {
    /// Its bytes are bad, or there are no more.
    Fault,
    Failed(io::Error),
}

/// A value that has to be in a range.
pub fn ranged<T: PartialOrd>(value: T, range: RangeInclusive<T>) -> Result<T, Stop> {
    if range.contains(&value) {
        Ok(value)
    } else {
        Err(Stop::Fault)
    }
}

pub struct Source {
    file: File,
    /// Read bytes. Those before `begun` are of earlier items, those from `taken` on wait to be taken.
    bytes: Vec<u8>,
    begun: usize,
    taken: usize,
}

impl Source {
    pub fn new(file: File) -> Source {
        Source {
            file,
            bytes: Vec::new(),
            begun: 0,
            taken: 0,
        }
    }

    /// Begins a new item.
    pub fn begin(&mut self) {
        self.begun = self.taken;
    }

    /// What was taken of the present item.
    pub fn item(&self) -> &[u8] {
        &self.bytes[self.begun..self.taken]
    }

    /// The length of what was taken of the present item.
    pub fn length(&self) -> usize {
        self.taken - self.begun
    }

    /// Reads another piece, if there is one. The bytes of earlier items make room for it.
    fn read_piece(&mut self) -> io::Result<bool> {
        self.bytes.drain(..self.begun);
        self.taken -= self.begun;
        self.begun = 0;
        let length = self.bytes.len();
        self.bytes.resize(length + PIECE, 0);
        let read = self.file.read(&mut self.bytes[length..]);
        self.bytes.truncate(length + read.as_ref().unwrap_or(&0));
        Ok(read? > 0)
    }

    /// Whether so many bytes can be taken.
    fn has(&mut self, count: usize) -> io::Result<bool> {
        while self.bytes.len() - self.taken < count {
            if !self.read_piece()? {
                return Ok(false);
            }
        }
        Ok(true)
    }

    pub fn is_at_end(&mut self) -> Result<bool, Stop> {
        Ok(!self.has(1).map_err(Stop::Failed)?)
    }

    /// So many bytes.
    pub fn take(&mut self, count: usize) -> Result<&[u8], Stop> {
        if !self.has(count).map_err(Stop::Failed)? {
            return Err(Stop::Fault);
        }
        let from = self.taken;
        self.taken += count;
        Ok(&self.bytes[from..self.taken])
    }

    fn take_array<const N: usize>(&mut self) -> Result<[u8; N], Stop> {
        let bytes = self.take(N)?;
        Ok(bytes.try_into().expect("as many bytes as were asked for"))
    }

    pub fn take_u8(&mut self) -> Result<u8, Stop> {
        Ok(u8::from_be_bytes(self.take_array()?))
    }

    pub fn take_u16(&mut self) -> Result<u16, Stop> {
        Ok(u16::from_be_bytes(self.take_array()?))
    }

    pub fn take_u32(&mut self) -> Result<u32, Stop> {
        Ok(u32::from_be_bytes(self.take_array()?))
    }

    pub fn take_u64(&mut self) -> Result<u64, Stop> {
        Ok(u64::from_be_bytes(self.take_array()?))
    }

    pub fn take_i64(&mut self) -> Result<i64, Stop> {
        Ok(i64::from_be_bytes(self.take_array()?))
    }

    /// Takes a byte that is 0 or 1.
    pub fn take_bool(&mut self) -> Result<bool, Stop> {
        Ok(ranged(self.take_u8()?, 0..=1)? == 1)
    }
}
