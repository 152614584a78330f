//! A record, read item by item. A bad one is told as bad, but not where and why it is.

use crate::common::profile::{Event, Input, Profile, Sample};
use crate::common::program::Failure;
use crate::common::spelling::{tags, FORMAT, MAGIC};
use crate::common::{MOST_CYCLES, MOST_SAMPLES, MOST_VALUE};
use crate::jobs::Refusal;
use crate::source::{ranged, Source, Stop};
use std::fs::File;
use std::iter;
use std::ops::Range;

const MOST_PARAMS: u16 = 16;
const MOST_EVENTS: u16 = 256;
const MOST_CAPACITY: u16 = 1_024;
const MOST_NAME: u8 = 32;
const MOST_ELEMENTS: u32 = 65_536;
const MOST_ELEMENT: u16 = 64;
const MOST_OUTPUT: u32 = 1 << 20;

/// The bytes of an element's draws.
pub const DRAWS: usize = 4;

/// The frames before the first cycle, of which Init is the last.
const FIRST_FRAMES: u32 = 3;

pub struct Header {
    pub format: u16,
    pub job: u16,
    pub profile: Profile,
}

/// An element with its length before it, and the words that it drew, where they are told.
pub struct Element<'a> {
    pub spelled: &'a [u8],
    pub draws: Option<u32>,
}

impl<'a> Element<'a> {
    pub fn bytes(&self) -> &'a [u8] {
        &self.spelled[2..]
    }
}

/// The elements of a frame, by their place in its bytes.
pub struct Elements {
    pub count: u32,
    pub place: Range<usize>,
    has_draws: bool,
}

impl Elements {
    /// The elements in order, given the bytes of their frame.
    pub fn of<'a>(&self, frame: &'a [u8]) -> impl Iterator<Item = Element<'a>> {
        let has_draws = self.has_draws;
        let mut rest = &frame[self.place.clone()];
        iter::from_fn(move || {
            let length = u16::from_be_bytes(*rest.first_chunk()?);
            let (spelled, behind) = rest.split_at(2 + usize::from(length));
            let (draws, behind) = match behind.split_first_chunk::<DRAWS>() {
                Some((draws, behind)) if has_draws => (Some(u32::from_be_bytes(*draws)), behind),
                _ => (None, behind),
            };
            rest = behind;
            Some(Element { spelled, draws })
        })
    }
}

pub enum Outcome {
    Finished {
        elements: Elements,
        output: Range<usize>,
    },
    Refused(Refusal),
}

pub struct Run {
    pub input: Input,
    pub outcome: Outcome,
}

pub enum Frame {
    Register,
    Discover,
    Init(Elements),
    Run(Run),
    Terminate,
}

fn take_event(format: u16, source: &mut Source) -> Result<Event, Stop> {
    let capacity = ranged(source.take_u16()?, 1..=MOST_CAPACITY)?;
    let length = ranged(source.take_u8()?, 1..=MOST_NAME)?;
    let name = source.take(usize::from(length))?;
    if !name
        .iter()
        .all(|byte| matches!(byte, b'a'..=b'z' | b'0'..=b'9' | b'_'))
    {
        return Err(Stop::Fault);
    }
    Ok(Event {
        name: name.iter().copied().map(char::from).collect(),
        capacity,
        is_fresh: format == FORMAT && source.take_bool()?,
    })
}

fn take_header(source: &mut Source) -> Result<Header, Stop> {
    if source.take(MAGIC.len())? != MAGIC {
        return Err(Stop::Fault);
    }
    let format = ranged(source.take_u16()?, 1..=FORMAT)?;
    let job = source.take_u16()?;
    let seed = source.take_u64()?;
    let cycle_time = ranged(source.take_u64()?, 1..=i64::MAX as u64)?;
    let params = ranged(source.take_u16()?, 0..=MOST_PARAMS)?;
    let params = (0..params)
        .map(|_| source.take_i64())
        .collect::<Result<_, _>>()?;
    let events = ranged(source.take_u16()?, 0..=MOST_EVENTS)?;
    let events = (0..events)
        .map(|_| take_event(format, source))
        .collect::<Result<_, _>>()?;
    let profile = Profile {
        cycle_time,
        seed,
        params,
        events,
    };
    Ok(Header {
        format,
        job,
        profile,
    })
}

fn take_elements(has_draws: bool, source: &mut Source) -> Result<Elements, Stop> {
    let count = ranged(source.take_u32()?, 0..=MOST_ELEMENTS)?;
    let from = source.length();
    let behind = if has_draws { DRAWS } else { 0 };
    for _ in 0..count {
        let length = ranged(source.take_u16()?, 0..=MOST_ELEMENT)?;
        source.take(usize::from(length) + behind)?;
    }
    Ok(Elements {
        count,
        place: from..source.length(),
        has_draws,
    })
}

fn take_sample(events: usize, source: &mut Source) -> Result<Sample, Stop> {
    let event = source.take_u16()?;
    if usize::from(event) >= events {
        return Err(Stop::Fault);
    }
    let value = ranged(source.take_i64()?, -MOST_VALUE..=MOST_VALUE)?;
    Ok(Sample { event, value })
}

fn take_input(events: usize, source: &mut Source) -> Result<Input, Stop> {
    let time = if source.take_bool()? {
        Some(source.take_u64()?)
    } else {
        None
    };
    let most = if events == 0 { 0 } else { MOST_SAMPLES };
    let count = ranged(source.take_u32()?, 0..=most as u32)?;
    let samples = (0..count)
        .map(|_| take_sample(events, source))
        .collect::<Result<_, _>>()?;
    Ok(Input { time, samples })
}

fn take_refusal(source: &mut Source) -> Result<Refusal, Stop> {
    let (phase, pass, element) = (source.take_u8()?, source.take_u8()?, source.take_u32()?);
    let code = source.take_u32()?;
    match (phase, pass, element) {
        (0, 0, 0) => Ok(Refusal::Prepare { code }),
        (1, 0..=7, 0..MOST_ELEMENTS) => Ok(Refusal::Pool {
            pass,
            element,
            code,
        }),
        (2, 0, 0) => Ok(Refusal::Conclude { code }),
        _ => Err(Stop::Fault),
    }
}

fn take_outcome(has_draws: bool, source: &mut Source) -> Result<Outcome, Stop> {
    if source.take_bool()? {
        return Ok(Outcome::Refused(take_refusal(source)?));
    }
    let elements = take_elements(has_draws, source)?;
    let length = ranged(source.take_u32()?, 0..=MOST_OUTPUT)?;
    let from = source.length();
    source.take(length as usize)?;
    Ok(Outcome::Finished {
        elements,
        output: from..source.length(),
    })
}

/// The frames of a record behind its header.
pub struct Frames {
    source: Source,
    events: usize,
    has_draws: bool,
    taken: u32,
    is_ended: bool,
}

impl Frames {
    /// The bytes of the frame that was taken last, or of the header where none was.
    pub fn bytes(&self) -> &[u8] {
        self.source.item()
    }

    /// The next frame, or none at the end of a whole record.
    pub fn next(&mut self) -> Result<Option<Frame>, Stop> {
        self.source.begin();
        if self.is_ended {
            return if self.source.is_at_end()? {
                Ok(None)
            } else {
                Err(Stop::Fault)
            };
        }
        let frame = self.take_frame()?;
        self.taken += 1;
        self.is_ended = matches!(frame, Frame::Terminate);
        Ok(Some(frame))
    }

    fn take_frame(&mut self) -> Result<Frame, Stop> {
        let source = &mut self.source;
        match (self.taken, source.take_u8()?) {
            (0, tags::REGISTER) => Ok(Frame::Register),
            (1, tags::DISCOVER) => Ok(Frame::Discover),
            (2, tags::INIT) => Ok(Frame::Init(take_elements(false, source)?)),
            (taken, tags::RUN) if (FIRST_FRAMES..FIRST_FRAMES + MOST_CYCLES).contains(&taken) => {
                Ok(Frame::Run(Run {
                    input: take_input(self.events, source)?,
                    outcome: take_outcome(self.has_draws, source)?,
                }))
            }
            (FIRST_FRAMES.., tags::TERMINATE) => Ok(Frame::Terminate),
            _ => Err(Stop::Fault),
        }
    }

    /// Takes the frames up to Init, and hands the bytes of each to a function.
    pub fn take_first(&mut self, mut hand: impl FnMut(&[u8])) -> Result<(), Stop> {
        for _ in 0..FIRST_FRAMES {
            self.next()?;
            hand(self.bytes());
        }
        Ok(())
    }
}

/// Reads the header of a record.
pub fn open(record: File) -> Result<(Header, Frames), Stop> {
    let mut source = Source::new(record);
    let header = take_header(&mut source)?;
    let frames = Frames {
        source,
        events: header.profile.events.len(),
        has_draws: header.format == FORMAT,
        taken: 0,
        is_ended: false,
    };
    Ok((header, frames))
}

impl From<Stop> for Failure {
    fn from(stop: Stop) -> Failure {
        match stop {
            Stop::Fault => Failure::new(5, "bad record"),
            Stop::Failed(error) => Failure::from(error),
        }
    }
}
