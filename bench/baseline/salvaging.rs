//! A record that breaks off, made whole.

use crate::common::program::Failure;
use crate::common::spelling::tags;
use crate::reading::{open, Frame, Frames};
use crate::source::Stop;
use std::fs::File;
use std::io::{self, Write};

/// Whether another cycle is whole.
fn is_at_run(frames: &mut Frames) -> io::Result<bool> {
    match frames.next() {
        Ok(frame) => Ok(matches!(frame, Some(Frame::Run(_)))),
        Err(Stop::Fault) => Ok(false),
        Err(Stop::Failed(error)) => Err(error),
    }
}

/// Writes a record up to its last whole cycle, and ends it. Nothing is written before Init is whole.
pub fn salvage(record: File, out: &mut impl Write) -> Result<(), Failure> {
    let (_, mut frames) = open(record)?;
    let mut beginning = frames.bytes().to_vec();
    frames.take_first(|frame| beginning.extend_from_slice(frame))?;
    out.write_all(&beginning)?;
    while is_at_run(&mut frames)? {
        out.write_all(frames.bytes())?;
    }
    Ok(out.write_all(&[tags::TERMINATE])?)
}
