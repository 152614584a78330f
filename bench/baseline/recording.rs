//! A stimulus, recorded.

use crate::bank::Bank;
use crate::cloud::Cloud;
use crate::common::profile::{Input, Profile};
use crate::common::program::Failure;
use crate::common::spelling::tags;
use crate::common::stimulus::{Place, Stimulus};
use crate::frames::Recorder;
use crate::guard::Guard;
use crate::jobs::Job;
use std::fs::File;
use std::io::{BufReader, Write};

/// Records a stimulus with a job, up to its end or its bad line.
fn record_with<J: Job>(
    profile: &Profile,
    job: J,
    stimulus: File,
    out: &mut impl Write,
) -> Result<(), Failure> {
    let mut recorder = Recorder::new(profile, job);
    out.write_all(recorder.head())?;
    out.write_all(recorder.init_frame())?;
    let mut stimulus = Stimulus::open(BufReader::new(stimulus), profile.events.len())?;
    let mut input = Input::default();
    while stimulus.next_block(&mut input)? {
        out.write_all(recorder.run_frame(&input))?;
    }
    if let Place::BadLine(line) = stimulus.place {
        return Err(Failure::bad_stimulus(line));
    }
    Ok(out.write_all(&[tags::TERMINATE])?)
}

/// Records a stimulus with the job of a name.
pub fn record(
    job: &str,
    profile: &Profile,
    stimulus: File,
    out: &mut impl Write,
) -> Result<(), Failure> {
    match job {
        "bank" => record_with(profile, Bank::new(profile), stimulus, out),
        "cloud" => record_with(profile, Cloud::new(profile), stimulus, out),
        "guard" => record_with(profile, Guard::new(profile), stimulus, out),
        _ => Err(Failure::other(format!("no job: {job}"))),
    }
}
