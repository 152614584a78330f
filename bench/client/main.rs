//! A second yardstick for the times of `det record`: plain Rust that offers the same interfaces, unproved.
//!
//! `client record JOB CYCLE_TIME PARAMS EVENTS SEED STIMULUS WORKERS` writes the record of a run to standard output.
//! The words and the statuses are those of `baseline`; WORKERS is a number from 1. `client heavy WORKERS` prints how
//! long passes of a heavy job take.

mod bank;
mod cache;
mod client;
mod cloud;
#[path = "../common/mod.rs"]
mod common;
mod container;
mod encode;
mod engine;
mod frames;
mod guard;
mod heavy;
mod job;
mod pool;
mod probes;
mod random;
mod recording;

use bank::Bank;
use cloud::Cloud;
use common::profile::Profile;
use common::program::{standard_output, status, Failure};
use guard::Guard;
use heavy::heavy;
use recording::record;
use std::env;
use std::fs::File;
use std::process::ExitCode;

/// Records a stimulus with the job of a name.
fn record_job(
    job: &str,
    profile: &Profile,
    workers: usize,
    stimulus: File,
    out: File,
) -> Result<(), Failure> {
    match job {
        "bank" => record::<Bank>(profile, workers, stimulus, out),
        "cloud" => record::<Cloud>(profile, workers, stimulus, out),
        "guard" => record::<Guard>(profile, workers, stimulus, out),
        _ => Err(Failure::other(format!("no job: {job}"))),
    }
}

fn run(words: &[&str]) -> Result<(), Failure> {
    let mut out = standard_output()?;
    match *words {
        ["record", job, cycle_time, params, events, seed, stimulus, workers] => {
            let profile = Profile::of_words(cycle_time, params, events, seed)?;
            record_job(job, &profile, workers.parse()?, File::open(stimulus)?, out)
        }
        ["heavy", workers] => heavy(workers.parse()?, &mut out),
        _ => Err(Failure::other(
            "client record WORD .., or client heavy WORKERS",
        )),
    }
}

fn main() -> ExitCode {
    let words: Vec<String> = env::args().skip(1).collect();
    let words: Vec<&str> = words.iter().map(String::as_str).collect();
    status(run(&words))
}
