//! A record, read whole into items, up to its end or its first fault.

use crate::common::profile::{Event, Input, Profile, Sample};
use crate::common::{MOST_CYCLES, MOST_SAMPLES, MOST_VALUE};
use crate::cursor::{Cursor, Fault, Reason, Taken};
use crate::jobs::Refusal;
use std::ops::{Range, RangeInclusive};

const MOST_ELEMENTS: i128 = 65_536;

pub struct Header {
    pub format: u16,
    pub job: u16,
    pub profile: Profile,
}

pub struct Element {
    pub bytes: Vec<u8>,
    /// The words that it drew, where they are told.
    pub draws: Option<u32>,
}

pub enum Outcome {
    Finished {
        elements: Vec<Element>,
        output: Vec<u8>,
    },
    Refused(Refusal),
}

pub struct Run {
    pub input: Input,
    pub outcome: Outcome,
}

pub enum Frame {
    Register,
    Discover,
    Init(Vec<Element>),
    Run(Run),
    Terminate,
}

/// The whole items of a record, each with its place among the bytes, and its fault.
pub struct Record {
    pub header: Option<(Header, Range<usize>)>,
    pub frames: Vec<(Frame, Range<usize>)>,
    pub fault: Option<Fault>,
}

/// What the frames of a record are read by.
#[derive(Clone, Copy)]
pub struct Shape {
    pub format: u16,
    pub events: usize,
}

impl Header {
    pub fn shape(&self) -> Shape {
        Shape {
            format: self.format,
            events: self.profile.events.len(),
        }
    }
}

fn take_event(format: u16, cursor: &mut Cursor) -> Taken<Event> {
    let capacity = cursor.number(2, 1..=1_024)? as u16;
    let length = cursor.number(1, 1..=32)?;
    let mut name = String::new();
    for _ in 0..length {
        name.push(
            cursor
                .byte(|byte| matches!(byte, b'a'..=b'z' | b'0'..=b'9' | b'_'))?
                .into(),
        );
    }
    let is_fresh = format == 2 && cursor.number(1, 0..=1)? == 1;
    Ok(Event {
        name,
        capacity,
        is_fresh,
    })
}

fn take_header(cursor: &mut Cursor) -> Taken<Header> {
    cursor.reason = Reason::Magic;
    for letter in *b"DETREC" {
        cursor.byte(|byte| byte == letter)?;
    }
    cursor.reason = Reason::Version;
    let format = cursor.number(2, 1..=2)? as u16;
    cursor.reason = Reason::Range;
    let job = cursor.number(2, 0..=0xffff)? as u16;
    let seed = cursor.number(8, 0..=u64::MAX.into())? as u64;
    let cycle_time = cursor.number(8, 1..=i64::MAX.into())? as u64;
    let count = cursor.number(2, 0..=16)?;
    let params = (0..count)
        .map(|_| cursor.signed(i64::MIN..=i64::MAX))
        .collect::<Taken<_>>()?;
    let count = cursor.number(2, 0..=256)?;
    let events = (0..count)
        .map(|_| take_event(format, cursor))
        .collect::<Taken<_>>()?;
    let profile = Profile {
        cycle_time,
        seed,
        params,
        events,
    };
    Ok(Header {
        format,
        job,
        profile,
    })
}

fn take_elements(has_draws: bool, cursor: &mut Cursor) -> Taken<Vec<Element>> {
    let count = cursor.number(4, 0..=MOST_ELEMENTS)?;
    let take = |_| {
        let length = cursor.number(2, 0..=64)? as usize;
        let bytes = cursor.bytes(length)?.to_vec();
        let draws = if has_draws {
            Some(cursor.number(4, 0..=u32::MAX.into())? as u32)
        } else {
            None
        };
        Ok(Element { bytes, draws })
    };
    (0..count).map(take).collect()
}

fn take_input(events: usize, cursor: &mut Cursor) -> Taken<Input> {
    let has_time = cursor.number(1, 0..=1)? == 1;
    let time = if has_time {
        Some(cursor.number(8, 0..=u64::MAX.into())? as u64)
    } else {
        None
    };
    let most = if events == 0 { 0 } else { MOST_SAMPLES as i128 };
    let count = cursor.number(4, 0..=most)?;
    let take = |_| {
        let event = cursor.number(2, 0..=events as i128 - 1)? as u16;
        let value = cursor.signed(-MOST_VALUE..=MOST_VALUE)?;
        Ok(Sample { event, value })
    };
    let samples = (0..count).map(take).collect::<Taken<_>>()?;
    Ok(Input { time, samples })
}

fn take_refusal(cursor: &mut Cursor) -> Taken<Refusal> {
    let phase = cursor.number(1, 0..=2)?;
    let (most_pass, most_element) = if phase == 1 {
        (7, MOST_ELEMENTS - 1)
    } else {
        (0, 0)
    };
    let pass = cursor.number(1, 0..=most_pass)? as u8;
    let element = cursor.number(4, 0..=most_element)? as u32;
    let code = cursor.number(4, 0..=u32::MAX.into())? as u32;
    Ok(match phase {
        0 => Refusal::Prepare { code },
        1 => Refusal::Pool {
            pass,
            element,
            code,
        },
        _ => Refusal::Conclude { code },
    })
}

fn take_outcome(has_draws: bool, cursor: &mut Cursor) -> Taken<Outcome> {
    if cursor.number(1, 0..=1)? == 1 {
        return Ok(Outcome::Refused(take_refusal(cursor)?));
    }
    let elements = take_elements(has_draws, cursor)?;
    let length = cursor.number(4, 0..=1 << 20)? as usize;
    let output = cursor.bytes(length)?.to_vec();
    Ok(Outcome::Finished { elements, output })
}

/// The tags that may stand at a frame's number, and why 04 may not where it may not.
fn tags_at(number: usize) -> (RangeInclusive<u8>, Reason) {
    match number {
        0..=2 => (number as u8 + 1..=number as u8 + 1, Reason::Order),
        _ if number < 3 + MOST_CYCLES as usize => (4..=5, Reason::Order),
        _ => (5..=5, Reason::TooMany),
    }
}

pub fn take_frame(number: usize, shape: Shape, cursor: &mut Cursor) -> Taken<Frame> {
    let at = cursor.at();
    let tag = cursor.byte(|byte| (1..=5).contains(&byte))?;
    let (tags, reason_of_run) = tags_at(number);
    if !tags.contains(&tag) {
        let reason = if tag == 4 {
            reason_of_run
        } else {
            Reason::Order
        };
        return Err(Fault { offset: at, reason });
    }
    Ok(match tag {
        1 => Frame::Register,
        2 => Frame::Discover,
        3 => Frame::Init(take_elements(false, cursor)?),
        4 => Frame::Run(Run {
            input: take_input(shape.events, cursor)?,
            outcome: take_outcome(shape.format == 2, cursor)?,
        }),
        _ => Frame::Terminate,
    })
}

impl Record {
    /// Takes the items of a record, and keeps the whole ones.
    fn take(&mut self, cursor: &mut Cursor) -> Taken<()> {
        let header = take_header(cursor)?;
        let shape = header.shape();
        self.header = Some((header, 0..cursor.at()));
        loop {
            let from = cursor.at();
            let frame = take_frame(self.frames.len(), shape, cursor)?;
            let is_last = matches!(frame, Frame::Terminate);
            self.frames.push((frame, from..cursor.at()));
            if is_last {
                return cursor.end();
            }
        }
    }

    pub fn of(bytes: &[u8]) -> Record {
        let mut record = Record {
            header: None,
            frames: Vec::new(),
            fault: None,
        };
        record.fault = record.take(&mut Cursor::new(bytes)).err();
        record
    }

    /// The runs among its whole frames.
    pub fn runs(&self) -> impl Iterator<Item = &Run> {
        self.frames.iter().filter_map(|(frame, _)| match frame {
            Frame::Run(run) => Some(run),
            _ => None,
        })
    }
}
