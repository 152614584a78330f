//! A text, taken byte by byte.

use super::{NotToml, Parsed};

pub struct Scanner<'a> {
    rest: &'a str,
}

/// Whether a comment or a string may hold a character as it is.
pub fn is_plain(byte: u8) -> bool {
    byte == b'\t' || (byte >= b' ' && byte != 0x7f)
}

impl<'a> Scanner<'a> {
    pub fn new(text: &'a str) -> Scanner<'a> {
        Scanner { rest: text }
    }

    pub fn is_at_end(&self) -> bool {
        self.rest.is_empty()
    }

    pub fn peek(&self) -> Option<u8> {
        self.rest.as_bytes().first().copied()
    }

    /// What is left to take.
    pub fn rest(&self) -> &'a str {
        self.rest
    }

    /// Takes so many bytes, which end between two characters.
    pub fn take(&mut self, length: usize) -> &'a str {
        let (taken, rest) = self.rest.split_at(length);
        self.rest = rest;
        taken
    }

    /// Takes the longest beginning whose bytes are of a kind. All bytes of a character beyond ASCII
    /// are, or none is.
    pub fn take_while(&mut self, is_taken: impl Fn(u8) -> bool) -> &'a str {
        let length = self.rest.bytes().take_while(|&byte| is_taken(byte)).count();
        self.take(length)
    }

    /// Takes a word, if it is there.
    pub fn takes_word(&mut self, word: &str) -> bool {
        let is_there = self.rest.starts_with(word);
        if is_there {
            self.take(word.len());
        }
        is_there
    }

    /// Takes an ASCII character, if it is there.
    pub fn takes(&mut self, byte: u8) -> bool {
        let is_there = self.peek() == Some(byte);
        if is_there {
            self.take(1);
        }
        is_there
    }

    pub fn expect(&mut self, byte: u8) -> Parsed<()> {
        if self.takes(byte) {
            Ok(())
        } else {
            Err(NotToml)
        }
    }

    pub fn takes_newline(&mut self) -> bool {
        self.takes(b'\n') || self.takes_word("\r\n")
    }

    pub fn skip_blanks(&mut self) {
        self.take_while(|byte| matches!(byte, b' ' | b'\t'));
    }

    fn skip_comment(&mut self) {
        if self.peek() == Some(b'#') {
            self.take_while(is_plain);
        }
    }

    /// Takes what may stand behind an expression, up to the next line.
    pub fn end_line(&mut self) -> Parsed<()> {
        self.skip_blanks();
        self.skip_comment();
        if self.is_at_end() || self.takes_newline() {
            Ok(())
        } else {
            Err(NotToml)
        }
    }

    /// Skips blanks, comments and line ends.
    pub fn skip_lines(&mut self) {
        loop {
            self.skip_blanks();
            self.skip_comment();
            if !self.takes_newline() {
                return;
            }
        }
    }
}
