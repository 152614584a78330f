//! The commands on manifests and stimuli.

use crate::common::profile::{Event, Input, Profile, Sample};
use crate::common::spelling::{put_header, tags};
use crate::common::stimulus::{Place, Stimulus};
use crate::common::MOST_VALUE;
use crate::encoding::put_frame;
use crate::ended::Ended;
use crate::manifest::{self, Manifest};
use crate::record::{Frame, Outcome, Run};
use crate::rerun::Rerun;
use crate::texts::manifest_lines;

/// The inputs of a stimulus, and its bad line, if it has one.
pub fn inputs(stimulus: &[u8], events: usize) -> (Vec<Input>, Option<u64>) {
    let read = "bytes in memory can be read";
    let mut stimulus = Stimulus::open(stimulus, events).expect(read);
    let mut inputs = Vec::new();
    let mut input = Input::default();
    while stimulus.next_block(&mut input).expect(read) {
        inputs.push(std::mem::take(&mut input));
    }
    let bad_line = match stimulus.place {
        Place::BadLine(line) => Some(line),
        _ => None,
    };
    (inputs, bad_line)
}

/// A record that is being made.
struct Recording<'a> {
    rerun: Rerun<'a>,
    out: Vec<u8>,
}

impl<'a> Recording<'a> {
    /// The record of a job that takes the profile, up to Init.
    fn of(job: u16, profile: &'a Profile) -> Recording<'a> {
        let mut rerun = Rerun::of(job, profile).expect("the profile was judged");
        let mut out = Vec::new();
        put_header(2, job, profile, &mut out);
        for frame in [Frame::Register, Frame::Discover, rerun.init()] {
            put_frame(&frame, 2, &mut out);
        }
        Recording { rerun, out }
    }

    fn run(&mut self, input: &Input) -> Frame {
        let frame = self.rerun.run(input);
        put_frame(&frame, 2, &mut self.out);
        frame
    }

    fn end(mut self, bad_line: Option<u64>) -> Ended {
        match bad_line {
            None => {
                self.out.push(tags::TERMINATE);
                Ended::done(self.out)
            }
            Some(line) => Ended::new(4, format!("bad stimulus: line {line}"), self.out),
        }
    }
}

fn record_profile(job: u16, profile: &Profile, stimulus: &[u8]) -> Ended {
    let (inputs, bad_line) = inputs(stimulus, profile.events.len());
    let mut recording = Recording::of(job, profile);
    for input in &inputs {
        recording.run(input);
    }
    recording.end(bad_line)
}

pub fn record(manifest: &Manifest, stimulus: &[u8]) -> Ended {
    record_profile(manifest.job, &manifest.profile, stimulus)
}

pub fn demo(stimulus: &[u8]) -> Ended {
    let event = Event {
        name: "x".into(),
        capacity: 2,
        is_fresh: false,
    };
    let profile = Profile {
        cycle_time: 10_000_000,
        seed: 0,
        params: vec![4, 2],
        events: vec![event],
    };
    record_profile(1, &profile, stimulus)
}

/// What a cycle of a first client gives to a second one: the words of its output that are good
/// samples.
fn derived(input: &Input, frame: &Frame, events: usize) -> Input {
    let output: &[u8] = match frame {
        Frame::Run(Run {
            outcome: Outcome::Finished { output, .. },
            ..
        }) => output,
        _ => &[],
    };
    let words = output
        .chunks_exact(8)
        .map(|word| i64::from_be_bytes(word.try_into().expect("8 bytes")));
    let is_good = |sample: &Sample| (-MOST_VALUE..=MOST_VALUE).contains(&sample.value);
    let samples = (0..)
        .zip(words.take(events))
        .map(|(event, value)| Sample { event, value });
    Input {
        time: input.time,
        samples: samples.filter(is_good).collect(),
    }
}

pub fn chain(first: &Manifest, second: &Manifest, stimulus: &[u8]) -> Ended {
    let (inputs, bad_line) = inputs(stimulus, first.profile.events.len());
    let mut source = Recording::of(first.job, &first.profile);
    let mut recording = Recording::of(second.job, &second.profile);
    for input in &inputs {
        let frame = source.run(input);
        recording.run(&derived(input, &frame, second.profile.events.len()));
    }
    recording.end(bad_line)
}

pub fn needs(manifest: &Manifest) -> Ended {
    Ended::done(manifest_lines(manifest).into())
}

/// Reads a manifest, or ends as where it is refused.
pub fn read_manifest(bytes: &[u8], seed: u64, is_strict: bool) -> Result<Manifest, Ended> {
    manifest::read(bytes, seed, is_strict).map_err(Ended::bad_manifest)
}
