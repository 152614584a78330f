//! A record as text.

use crate::common::profile::{Input, Profile};
use crate::common::program::Failure;
use crate::common::spelling::FORMAT;
use crate::reading::{open, Elements, Frame, Header, Outcome, Run};
use crate::reports::{put_refusal, Reports};
use crate::text::{put_fields, put_hex, put_line, put_number, put_signed, put_word};
use std::fs::File;
use std::io::{self, Write};

fn put_params(params: &[i64], text: &mut Vec<u8>) {
    put_word("params", text);
    if params.is_empty() {
        put_word(" -", text);
    }
    for &param in params {
        text.push(b' ');
        put_signed(param, text);
    }
    text.push(b'\n');
}

fn put_events(format: u16, profile: &Profile, text: &mut Vec<u8>) {
    for (number, event) in (0..).zip(&profile.events) {
        put_fields("event", &[number], text);
        text.push(b' ');
        put_fields(&event.name, &[event.capacity.into()], text);
        if format == FORMAT {
            put_word(if event.is_fresh { " fresh" } else { " last" }, text);
        }
        text.push(b'\n');
    }
}

fn put_header(header: &Header, text: &mut Vec<u8>) {
    let profile = &header.profile;
    if header.format == FORMAT {
        put_line("format", &[FORMAT.into()], text);
    }
    put_line("job", &[header.job.into()], text);
    put_line("seed", &[profile.seed], text);
    put_line("cycle_time", &[profile.cycle_time], text);
    put_params(&profile.params, text);
    put_events(header.format, profile, text);
}

fn put_elements(elements: &Elements, frame: &[u8], text: &mut Vec<u8>) {
    for (number, element) in (0..).zip(elements.of(frame)) {
        put_fields("element", &[number], text);
        text.push(b' ');
        put_hex(element.bytes(), text);
        if let Some(draws) = element.draws {
            text.push(b' ');
            put_number(draws.into(), text);
        }
        text.push(b'\n');
    }
}

fn put_input(cycle: u64, input: &Input, text: &mut Vec<u8>) {
    put_fields("run", &[cycle], text);
    match input.time {
        Some(time) => put_line(" time", &[time], text),
        None => put_word(" time -\n", text),
    }
    for sample in &input.samples {
        put_fields("sample", &[sample.event.into()], text);
        text.push(b' ');
        put_signed(sample.value, text);
        text.push(b'\n');
    }
}

fn put_outcome(outcome: &Outcome, frame: &[u8], text: &mut Vec<u8>) {
    match outcome {
        Outcome::Finished { elements, output } => {
            put_line("finished", &[elements.count.into()], text);
            put_elements(elements, frame, text);
            put_word("output ", text);
            put_hex(&frame[output.clone()], text);
            text.push(b'\n');
        }
        Outcome::Refused(refusal) => {
            put_word("refused ", text);
            put_refusal(*refusal, text);
        }
    }
}

/// What is told of the frames so far, and the lines of the present item.
#[derive(Default)]
struct Telling {
    cycles: u64,
    reports: Reports,
    text: Vec<u8>,
}

impl Telling {
    fn put_run(&mut self, run: &Run, frame: &[u8]) {
        self.cycles += 1;
        put_input(self.cycles, &run.input, &mut self.text);
        put_outcome(&run.outcome, frame, &mut self.text);
        self.reports.see(run);
    }

    fn put_frame(&mut self, frame: &Frame, bytes: &[u8]) {
        match frame {
            Frame::Register => put_word("register\n", &mut self.text),
            Frame::Discover => put_word("discover\n", &mut self.text),
            Frame::Init(elements) => {
                put_line("init", &[elements.count.into()], &mut self.text);
                put_elements(elements, bytes, &mut self.text);
            }
            Frame::Run(run) => self.put_run(run, bytes),
            Frame::Terminate => put_word("terminate\n", &mut self.text),
        }
    }

    /// Writes the lines of the present item, and forgets them.
    fn write_to(&mut self, out: &mut impl Write) -> io::Result<()> {
        out.write_all(&self.text)?;
        self.text.clear();
        Ok(())
    }
}

/// Writes the text of a record, item by item, and behind a whole one the reports.
pub fn show(record: File, out: &mut impl Write) -> Result<(), Failure> {
    let (header, mut frames) = open(record)?;
    let mut telling = Telling::default();
    put_header(&header, &mut telling.text);
    telling.write_to(out)?;
    while let Some(frame) = frames.next()? {
        telling.put_frame(&frame, frames.bytes());
        telling.write_to(out)?;
    }
    telling.reports.put(&mut telling.text);
    Ok(telling.write_to(out)?)
}
