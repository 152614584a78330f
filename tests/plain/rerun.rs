//! The run that inputs give, frame by frame.

use crate::bank::Bank;
use crate::cloud::Cloud;
use crate::common::profile::{Input, Profile};
use crate::cursor::Cursor;
use crate::frames::Recorder;
use crate::guard::Guard;
use crate::jobs::Job;
use crate::judging::bad_parameter;
use crate::record::{take_frame, Frame, Shape};

/// The frames of a run, as bytes of format 2.
trait Frames {
    fn init(&mut self) -> &[u8];
    fn run(&mut self, input: &Input) -> &[u8];
}

impl<J: Job> Frames for Recorder<'_, J> {
    fn init(&mut self) -> &[u8] {
        self.init_frame()
    }

    fn run(&mut self, input: &Input) -> &[u8] {
        self.run_frame(input)
    }
}

pub struct Rerun<'a> {
    frames: Box<dyn Frames + 'a>,
    shape: Shape,
}

/// The number of the first Run frame.
pub const FIRST_RUN: usize = 3;

impl<'a> Rerun<'a> {
    /// The run of a job's number and a profile, where there is such a job and it takes the
    /// parameters.
    pub fn of(job: u16, profile: &'a Profile) -> Option<Rerun<'a>> {
        if !(1..=3).contains(&job) || bad_parameter(job, &profile.params).is_some() {
            return None;
        }
        let frames: Box<dyn Frames> = match job {
            1 => Box::new(Recorder::new(profile, Bank::new(profile))),
            2 => Box::new(Recorder::new(profile, Cloud::new(profile))),
            _ => Box::new(Recorder::new(profile, Guard::new(profile))),
        };
        let shape = Shape {
            format: 2,
            events: profile.events.len(),
        };
        Some(Rerun { frames, shape })
    }

    pub fn init(&mut self) -> Frame {
        read_back(FIRST_RUN - 1, self.shape, self.frames.init())
    }

    pub fn run(&mut self, input: &Input) -> Frame {
        read_back(FIRST_RUN, self.shape, self.frames.run(input))
    }
}

fn read_back(number: usize, shape: Shape, bytes: &[u8]) -> Frame {
    match take_frame(number, shape, &mut Cursor::new(bytes)) {
        Ok(frame) => frame,
        Err(_) => panic!("a run gave a frame that isn't one"),
    }
}
