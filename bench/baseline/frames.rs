//! The frames of a record, format 2.

use crate::common::profile::{Input, Profile, Sample};
use crate::common::spelling::{put, put_header, put_input, tags, FORMAT};
use crate::jobs::{Cycle, Job, Refusal};

/// Appends the elements, each with its length before it and, in a run, its draws behind it.
fn put_elements<J: Job>(job: &J, is_run: bool, bytes: &mut Vec<u8>) {
    put(job.count().to_be_bytes(), bytes);
    for element in 0..job.count() {
        let at = bytes.len();
        bytes.extend_from_slice(&[0, 0]);
        job.put_element(element, bytes);
        let length = (bytes.len() - at - 2) as u16;
        bytes[at..at + 2].copy_from_slice(&length.to_be_bytes());
        if is_run {
            put(job.draws(element).to_be_bytes(), bytes);
        }
    }
}

fn put_refusal(refusal: Refusal, bytes: &mut Vec<u8>) {
    let (phase, pass, element, code) = refusal.parts();
    bytes.extend_from_slice(&[1, phase, pass]);
    put(element.to_be_bytes(), bytes);
    put(code.to_be_bytes(), bytes);
}

/// A job, the newest sample of each event, and the frame that is being written.
pub struct Recorder<'a, J> {
    profile: &'a Profile,
    job: J,
    newest: Vec<Option<i64>>,
    cycle: u32,
    output: Vec<u8>,
    frame: Vec<u8>,
}

impl<'a, J: Job> Recorder<'a, J> {
    pub fn new(profile: &'a Profile, job: J) -> Recorder<'a, J> {
        let newest = vec![None; profile.events.len()];
        Recorder {
            profile,
            job,
            newest,
            cycle: 0,
            output: Vec::new(),
            frame: Vec::new(),
        }
    }

    /// The header, Register and Discover.
    pub fn head(&mut self) -> &[u8] {
        self.frame.clear();
        put_header(FORMAT, J::NUMBER, self.profile, &mut self.frame);
        self.frame
            .extend_from_slice(&[tags::REGISTER, tags::DISCOVER]);
        &self.frame
    }

    /// The frame of the elements before the first cycle.
    pub fn init_frame(&mut self) -> &[u8] {
        self.frame.clear();
        self.frame.push(tags::INIT);
        put_elements(&self.job, false, &mut self.frame);
        &self.frame
    }

    /// The frame of the next cycle. Its samples are seen by the cycle after it.
    pub fn run_frame(&mut self, input: &Input) -> &[u8] {
        self.cycle += 1;
        self.output.clear();
        let next_time = input
            .time
            .and_then(|time| time.checked_add(self.profile.cycle_time));
        let cycle = Cycle {
            number: self.cycle,
            next_time,
            newest: &self.newest,
        };
        let outcome = self.job.run(&cycle, &mut self.output);
        self.frame.clear();
        self.frame.push(tags::RUN);
        put_input(input, &mut self.frame);
        match outcome {
            Ok(()) => {
                self.frame.push(0);
                put_elements(&self.job, true, &mut self.frame);
                put((self.output.len() as u32).to_be_bytes(), &mut self.frame);
                self.frame.extend_from_slice(&self.output);
            }
            Err(refusal) => put_refusal(refusal, &mut self.frame),
        }
        self.turn(&input.samples);
        &self.frame
    }

    fn turn(&mut self, samples: &[Sample]) {
        for (newest, event) in self.newest.iter_mut().zip(&self.profile.events) {
            if event.is_fresh {
                *newest = None;
            }
        }
        for sample in samples {
            self.newest[usize::from(sample.event)] = Some(sample.value);
        }
    }
}
