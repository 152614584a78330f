//! The reader of a stimulus, line by line.

use super::profile::{Input, Sample};
use super::{MOST_CYCLES, MOST_SAMPLES, MOST_VALUE};
use std::io::{self, BufRead, Read};

const MOST_LINE: usize = 128;

enum Line {
    Cycle(Option<u64>),
    Sample(Sample),
    Terminate,
}

/// Whether a text is a decimal number in its one spelling.
fn is_decimal(text: &str) -> bool {
    text.bytes().all(|byte| byte.is_ascii_digit()) && (text == "0" || !text.starts_with('0'))
}

fn parse_unsigned(text: &str) -> Option<u64> {
    is_decimal(text).then(|| text.parse().ok()).flatten()
}

fn parse_value(text: &str) -> Option<i64> {
    let value: i64 = match text.strip_prefix('-') {
        Some(digits) if is_decimal(digits) && digits != "0" => text.parse().ok()?,
        None if is_decimal(text) => text.parse().ok()?,
        _ => return None,
    };
    (-MOST_VALUE..=MOST_VALUE).contains(&value).then_some(value)
}

fn parse_line(line: &str, events: usize) -> Option<Line> {
    if line == "terminate" {
        return Some(Line::Terminate);
    }
    match line.split_once(' ')? {
        ("cycle", "-") => Some(Line::Cycle(None)),
        ("cycle", time) => Some(Line::Cycle(Some(parse_unsigned(time)?))),
        ("sample", rest) => {
            let (event, value) = rest.split_once(' ')?;
            let event = parse_unsigned(event).filter(|&event| event < events as u64)?;
            Some(Line::Sample(Sample {
                event: event as u16,
                value: parse_value(value)?,
            }))
        }
        _ => None,
    }
}

/// What stands behind the blocks that were given so far.
pub enum Place {
    Block(Option<u64>),
    End,
    BadLine(u64),
}

/// The blocks of a stimulus, one after another.
pub struct Stimulus<R> {
    source: R,
    events: usize,
    line: Vec<u8>,
    good_lines: u64,
    cycles: u32,
    pub place: Place,
}

impl<R: BufRead> Stimulus<R> {
    /// Reads the first line, and the one behind it.
    pub fn open(source: R, events: usize) -> io::Result<Stimulus<R>> {
        let place = Place::BadLine(1);
        let mut stimulus = Stimulus {
            source,
            events,
            line: Vec::new(),
            good_lines: 0,
            cycles: 0,
            place,
        };
        if stimulus.next_line()? == Some("stim 1") {
            stimulus.good_lines = 1;
            let line = stimulus.next_parsed()?;
            stimulus.end_block(line)?;
        }
        Ok(stimulus)
    }

    /// The next whole line without its LF, or none where it is too long or not whole.
    fn next_line(&mut self) -> io::Result<Option<&str>> {
        self.line.clear();
        let mut piece = (&mut self.source).take(MOST_LINE as u64 + 1);
        piece.read_until(b'\n', &mut self.line)?;
        Ok(match self.line.split_last() {
            Some((b'\n', text)) => std::str::from_utf8(text).ok(),
            _ => None,
        })
    }

    fn next_parsed(&mut self) -> io::Result<Option<Line>> {
        let events = self.events;
        Ok(self.next_line()?.and_then(|line| parse_line(line, events)))
    }

    /// Reads the next whole block, and the line that ends it. Answers whether there is one.
    pub fn next_block(&mut self, input: &mut Input) -> io::Result<bool> {
        let Place::Block(time) = self.place else {
            return Ok(false);
        };
        input.time = time;
        input.samples.clear();
        loop {
            match self.next_parsed()? {
                Some(Line::Sample(sample)) if input.samples.len() < MOST_SAMPLES => {
                    input.samples.push(sample);
                    self.good_lines += 1;
                }
                line => return self.end_block(line),
            }
        }
    }

    /// Goes on behind the block that a line ends. Answers whether the line is a good one.
    fn end_block(&mut self, line: Option<Line>) -> io::Result<bool> {
        self.place = match line {
            Some(Line::Cycle(time)) if self.cycles < MOST_CYCLES => Place::Block(time),
            Some(Line::Terminate) if self.source.fill_buf()?.is_empty() => Place::End,
            Some(Line::Terminate) => Place::BadLine(self.good_lines + 2),
            _ => {
                self.place = Place::BadLine(self.good_lines + 1);
                return Ok(false);
            }
        };
        self.good_lines += 1;
        self.cycles += u32::from(matches!(self.place, Place::Block(_)));
        Ok(true)
    }
}
