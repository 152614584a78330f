//! Copies that run now.

use crate::ended::Ended;
use crate::manifest::Manifest;
use crate::record::{Frame, Outcome, Record, Run};
use crate::recording::inputs;
use crate::rerun::Rerun;

/// The most bytes of a stimulus of `det_twin`.
const MOST_HELD: usize = 1 << 20;

fn has_output(frame: &Frame) -> bool {
    match frame {
        Frame::Run(Run {
            outcome: Outcome::Finished { output, .. },
            ..
        }) => !output.is_empty(),
        _ => false,
    }
}

/// `det_twin`. Of a frame and a copy to flip, the frame's output is turned in that copy.
pub fn twins(manifest: &Manifest, stimulus: &[u8], flip: Option<(u64, u64)>) -> Ended {
    if stimulus.len() > MOST_HELD {
        return Ended::new(4, "bad stimulus: too long", Vec::new());
    }
    let (inputs, bad_line) = inputs(stimulus, manifest.profile.events.len());
    if let Some(line) = bad_line {
        return Ended::new(4, format!("bad stimulus: line {line}"), Vec::new());
    }
    let mut rerun = Rerun::of(manifest.job, &manifest.profile).expect("the profile was judged");
    for (input, cycle) in inputs.iter().zip(1..) {
        let has_output = has_output(&rerun.run(input));
        match flip {
            Some((copy, frame)) if has_output && frame == cycle + 2 => {
                let text = format!("differ copy {} output {cycle}\n", copy.max(1));
                return Ended::differs(text.into());
            }
            _ => (),
        }
    }
    Ended::done(format!("agree {}\n", inputs.len()).into())
}

/// `det_lane`, whose children all end as the recording of one ends.
pub fn lane(recorded: Ended) -> Ended {
    match recorded.status {
        0 => {
            let cycles = Record::of(&recorded.out).runs().count();
            Ended::done(format!("agree {cycles}\n").into())
        }
        2 => recorded,
        status => Ended::new(9, format!("child 0 status {status}"), Vec::new()),
    }
}
