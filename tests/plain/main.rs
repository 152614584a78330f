//! A plain program that judges inputs as `docs/FORMATS.md` says, case by case, to hold `det`,
//! `det_twin` and `det_lane` against.
//!
//! Each line of standard input is a case: the name of a program and its words, parted by bytes 0.
//! For each it answers a line with the exit status, the number of bytes on standard output and the
//! line on standard error, parted by spaces, and behind it those bytes. Where the words ask for a
//! text of the program, the line is `(a text)`, and no bytes follow. Cases of `det_lane` have all
//! their words; the program that they name is taken for `det`.

#[path = "../../bench/baseline/bank.rs"]
mod bank;
mod cases;
#[path = "../../bench/baseline/cloud.rs"]
mod cloud;
mod commands;
#[path = "../../bench/common/mod.rs"]
#[allow(dead_code)]
mod common;
mod copies;
mod cursor;
mod encoding;
mod ended;
#[path = "../../bench/baseline/frames.rs"]
#[allow(dead_code)]
mod frames;
#[path = "../../bench/baseline/guard.rs"]
mod guard;
#[path = "../../bench/baseline/jobs.rs"]
mod jobs;
mod judging;
mod manifest;
mod places;
mod record;
mod recording;
mod rerun;
mod running;
mod texts;
mod toml;
mod words;

use std::io::{self, BufRead, Write};

fn main() -> io::Result<()> {
    let mut out = io::stdout().lock();
    for line in io::stdin().lock().split(b'\n') {
        let line = line?;
        let words: Vec<&[u8]> = line.split(|&byte| byte == 0).collect();
        let ended = cases::run(&words);
        writeln!(out, "{} {} {}", ended.status, ended.out.len(), ended.line)?;
        out.write_all(&ended.out)?;
        out.flush()?;
    }
    Ok(())
}
