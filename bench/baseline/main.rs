//! A yardstick for the times of `det`: the least that some of its commands cost in plain Rust, on one thread, unproved.
//!
//! | words | what it writes to standard output |
//! |---|---|
//! | `record JOB CYCLE_TIME PARAMS EVENTS SEED STIMULUS` | the record of a run |
//! | `show RECORD` | a record as text |
//! | `salvage RECORD` | a record up to its last whole cycle, made whole |
//! | `upgrade RECORD` | a record of format 1, run again, in format 2 |
//! | `downgrade RECORD` | a record in format 1 |
//!
//! PARAMS are numbers parted by commas, and EVENTS are parts `NAME:CAPACITY:POLICY`, also parted by commas; `-`
//! stands for none. The values of a profile are taken as good. It ends with 0, with 4 at a bad line of the stimulus,
//! with 5 at a fault of the record, and else with 1, also where a record in format 1 departs from its run.

mod bank;
mod cloud;
#[path = "../common/mod.rs"]
mod common;
mod frames;
mod guard;
mod jobs;
mod reading;
mod recording;
mod reports;
mod salvaging;
mod showing;
mod source;
mod text;
mod upgrading;

use common::profile::Profile;
use common::program::{standard_output, status, Failure};
use recording::record;
use salvaging::salvage;
use showing::show;
use std::env;
use std::fs::File;
use std::io::{BufWriter, Write};
use std::process::ExitCode;
use upgrading::{downgrade, upgrade};

/// The bytes that are written at a time.
const PIECE: usize = 1 << 16;

fn run_to(words: &[&str], out: &mut impl Write) -> Result<(), Failure> {
    match *words {
        ["record", job, cycle_time, params, events, seed, stimulus] => {
            let profile = Profile::of_words(cycle_time, params, events, seed)?;
            record(job, &profile, File::open(stimulus)?, out)
        }
        ["show", name] => show(File::open(name)?, out),
        ["salvage", name] => salvage(File::open(name)?, out),
        ["upgrade", name] => upgrade(File::open(name)?, out),
        ["downgrade", name] => downgrade(File::open(name)?, out),
        _ => Err(Failure::other("baseline COMMAND WORD ..")),
    }
}

fn run(words: &[&str]) -> Result<(), Failure> {
    let mut out = BufWriter::with_capacity(PIECE, standard_output()?);
    let end = run_to(words, &mut out);
    out.flush()?;
    end
}

fn main() -> ExitCode {
    let words: Vec<String> = env::args().skip(1).collect();
    let words: Vec<&str> = words.iter().map(String::as_str).collect();
    status(run(&words))
}
