//! A record from one format into the other.

use crate::bank::Bank;
use crate::cloud::Cloud;
use crate::common::profile::Profile;
use crate::common::program::Failure;
use crate::common::spelling::{put_header, tags, FORMAT};
use crate::frames::Recorder;
use crate::guard::Guard;
use crate::jobs::Job;
use crate::reading::{open, Elements, Frame, Frames, Outcome, Run, DRAWS};
use std::fs::File;
use std::io::{self, Write};

/// What stands behind these elements in a frame of the present format, which has draws behind each of them.
fn behind_elements<'a>(elements: &Elements, old: &[u8], new: &'a [u8]) -> Option<&'a [u8]> {
    elements.of(old).try_fold(new, |rest, element| {
        rest.strip_prefix(element.spelled)?.get(DRAWS..)
    })
}

/// Whether a cycle's frame of format 1 is one of the present format without its draws.
fn is_same_run(run: &Run, old: &[u8], new: &[u8]) -> bool {
    let Outcome::Finished { elements, .. } = &run.outcome else {
        return old == new;
    };
    let place = &elements.place;
    let rest = new
        .strip_prefix(&old[..place.start])
        .and_then(|rest| behind_elements(elements, old, rest));
    rest == Some(&old[place.end..])
}

fn agreed(is_same: bool) -> Result<(), Failure> {
    if is_same {
        Ok(())
    } else {
        Err(Failure::other("the record departs from its run"))
    }
}

/// Runs the inputs of a record of format 1 again, and writes the frames of the present format, as long as they agree.
fn run_again<J: Job>(
    profile: &Profile,
    job: J,
    mut frames: Frames,
    out: &mut impl Write,
) -> Result<(), Failure> {
    let mut recorder = Recorder::new(profile, job);
    out.write_all(recorder.head())?;
    frames.take_first(|_| ())?;
    let init = recorder.init_frame();
    agreed(init == frames.bytes())?;
    out.write_all(init)?;
    while let Some(frame) = frames.next()? {
        if let Frame::Run(run) = frame {
            let again = recorder.run_frame(&run.input);
            agreed(is_same_run(&run, frames.bytes(), again))?;
            out.write_all(again)?;
        }
    }
    Ok(out.write_all(&[tags::TERMINATE])?)
}

/// Writes a record of format 1, run again, in the present format.
pub fn upgrade(record: File, out: &mut impl Write) -> Result<(), Failure> {
    let (header, frames) = open(record)?;
    if header.format == FORMAT {
        return Err(Failure::other("the record has the present format"));
    }
    let profile = &header.profile;
    match header.job {
        Bank::NUMBER => run_again(profile, Bank::new(profile), frames, out),
        Cloud::NUMBER => run_again(profile, Cloud::new(profile), frames, out),
        Guard::NUMBER => run_again(profile, Guard::new(profile), frames, out),
        _ => Err(Failure::new(5, "bad record: profile")),
    }
}

fn write_without_draws(elements: &Elements, frame: &[u8], out: &mut impl Write) -> io::Result<()> {
    let place = &elements.place;
    out.write_all(&frame[..place.start])?;
    for element in elements.of(frame) {
        out.write_all(element.spelled)?;
    }
    out.write_all(&frame[place.end..])
}

/// Writes a record in format 1, which knows no draws, and no events of policy `fresh`.
pub fn downgrade(record: File, out: &mut impl Write) -> Result<(), Failure> {
    let (header, mut frames) = open(record)?;
    if header.profile.events.iter().any(|event| event.is_fresh) {
        return Err(Failure::other("format 1 has no policy `fresh`"));
    }
    let mut bytes = Vec::new();
    put_header(1, header.job, &header.profile, &mut bytes);
    out.write_all(&bytes)?;
    while let Some(frame) = frames.next()? {
        match &frame {
            Frame::Run(Run {
                outcome: Outcome::Finished { elements, .. },
                ..
            }) => write_without_draws(elements, frames.bytes(), out)?,
            _ => out.write_all(frames.bytes())?,
        }
    }
    Ok(())
}
