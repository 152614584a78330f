//! Bytes taken field by field. The first byte with which no good value remains is a fault.

use std::ops::RangeInclusive;

#[derive(Clone, Copy, PartialEq, Eq)]
pub enum Reason {
    Magic,
    Version,
    Range,
    Order,
    TooMany,
    Truncated,
    Trailing,
}

impl Reason {
    pub fn word(self) -> &'static str {
        match self {
            Reason::Magic => "magic",
            Reason::Version => "version",
            Reason::Range => "range",
            Reason::Order => "order",
            Reason::TooMany => "too_many",
            Reason::Truncated => "truncated",
            Reason::Trailing => "trailing",
        }
    }
}

#[derive(Clone, Copy)]
pub struct Fault {
    pub offset: usize,
    pub reason: Reason,
}

pub type Taken<T> = Result<T, Fault>;

pub struct Cursor<'a> {
    bytes: &'a [u8],
    at: usize,
    /// Why a bad byte of the present field is bad.
    pub reason: Reason,
}

impl<'a> Cursor<'a> {
    pub fn new(bytes: &'a [u8]) -> Cursor<'a> {
        Cursor {
            bytes,
            at: 0,
            reason: Reason::Range,
        }
    }

    pub fn at(&self) -> usize {
        self.at
    }

    /// The next byte, if it is a good one.
    pub fn byte(&mut self, is_good: impl Fn(u8) -> bool) -> Taken<u8> {
        let offset = self.at;
        let Some(&byte) = self.bytes.get(offset) else {
            let reason = Reason::Truncated;
            return Err(Fault { offset, reason });
        };
        if !is_good(byte) {
            let reason = self.reason;
            return Err(Fault { offset, reason });
        }
        self.at += 1;
        Ok(byte)
    }

    pub fn bytes(&mut self, length: usize) -> Taken<&'a [u8]> {
        let Some(taken) = self.bytes.get(self.at..self.at + length) else {
            return Err(Fault {
                offset: self.bytes.len(),
                reason: Reason::Truncated,
            });
        };
        self.at += length;
        Ok(taken)
    }

    /// The further bytes of a big-endian number that begins with these bytes. A value in the range
    /// has to remain.
    fn go_on(&mut self, begun: i128, behind: u32, range: &RangeInclusive<i128>) -> Taken<i128> {
        let mut value = begun;
        for left in (0..behind).rev() {
            let with = |byte: u8| (value << 8 | i128::from(byte)) << (8 * left);
            let spread = (1 << (8 * left)) - 1;
            let remains =
                |byte| with(byte) <= *range.end() && *range.start() <= with(byte) + spread;
            value = value << 8 | i128::from(self.byte(remains)?);
        }
        Ok(value)
    }

    /// A number without a sign.
    pub fn number(&mut self, width: u32, range: RangeInclusive<i128>) -> Taken<i128> {
        self.go_on(0, width, &range)
    }

    /// An i64. A negative one begins with a byte from 0x80 on, as if ones without end stood before
    /// it.
    pub fn signed(&mut self, range: RangeInclusive<i64>) -> Taken<i64> {
        let is_negative = self.bytes.get(self.at).is_some_and(|&byte| byte >= 0x80);
        let begun = if is_negative { -1 } else { 0 };
        let range = i128::from(*range.start())..=i128::from(*range.end());
        Ok(self.go_on(begun, 8, &range)? as i64)
    }

    /// Nothing may be left.
    pub fn end(&self) -> Taken<()> {
        if self.at == self.bytes.len() {
            return Ok(());
        }
        Err(Fault {
            offset: self.at,
            reason: Reason::Trailing,
        })
    }
}
