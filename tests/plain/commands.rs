//! The commands on one record.

use crate::common::spelling::{put_header, tags};
use crate::cursor::Fault;
use crate::encoding::put_frame;
use crate::ended::Ended;
use crate::places::difference;
use crate::record::{Frame, Header, Record};
use crate::rerun::{Rerun, FIRST_RUN};
use crate::texts::{frame_lines, header_lines, reports};

/// Which part of a record is shown.
#[derive(Clone, Copy, PartialEq, Eq)]
pub enum Part {
    All,
    Reports,
    Cycle(usize),
}

fn ended(fault: Option<Fault>, out: Vec<u8>) -> Ended {
    match fault {
        Some(fault) => Ended::bad_record(0, fault, out),
        None => Ended::done(out),
    }
}

pub fn show(bytes: &[u8], part: Part) -> Ended {
    let record = Record::of(bytes);
    let mut text = String::new();
    if let (Part::All, Some((header, _))) = (part, &record.header) {
        text += &header_lines(header);
    }
    for (number, (frame, _)) in record.frames.iter().enumerate() {
        let is_shown = match part {
            Part::All => true,
            Part::Reports => false,
            Part::Cycle(cycle) => number == cycle + 2 && matches!(frame, Frame::Run(_)),
        };
        if is_shown {
            text += &frame_lines(number, frame);
        }
    }
    if record.fault.is_none() && matches!(part, Part::All | Part::Reports) {
        text += &reports(record.runs());
    }
    ended(record.fault, text.into())
}

pub fn salvage(bytes: &[u8], tells_reports: bool) -> Ended {
    let record = Record::of(bytes);
    if let (true, Some(fault)) = (record.frames.len() < 3, record.fault) {
        return Ended::bad_record(0, fault, Vec::new());
    }
    if tells_reports {
        let count = record.runs().count();
        let text = format!("salvaged {count}\n{}", reports(record.runs()));
        return Ended::done(text.into());
    }
    let saved = record
        .frames
        .iter()
        .filter(|(frame, _)| !matches!(frame, Frame::Terminate));
    let length = saved.map(|(_, place)| place.end).last().unwrap_or(0);
    let mut out = bytes[..length].to_vec();
    out.push(tags::TERMINATE);
    Ended::done(out)
}

/// Reads a record's header and judges it, and has the run of its inputs used.
fn with_rerun(bytes: &[u8], use_run: impl FnOnce(&Record, &Header, Rerun) -> Ended) -> Ended {
    let record = Record::of(bytes);
    let Some((header, _)) = &record.header else {
        return ended(record.fault, Vec::new());
    };
    let Some(rerun) = Rerun::of(header.job, &header.profile) else {
        return Ended::bad_profile();
    };
    use_run(&record, header, rerun)
}

/// The frame that the inputs of a record give at the place of one that was read.
fn given(rerun: &mut Rerun, frame: &Frame) -> Frame {
    match frame {
        Frame::Register => Frame::Register,
        Frame::Discover => Frame::Discover,
        Frame::Init(_) => rerun.init(),
        Frame::Run(run) => rerun.run(&run.input),
        Frame::Terminate => Frame::Terminate,
    }
}

pub fn replay(bytes: &[u8]) -> Ended {
    with_rerun(bytes, |record, header, mut rerun| {
        let mut out = Vec::new();
        put_header(header.format, header.job, &header.profile, &mut out);
        for frame in [Frame::Register, Frame::Discover, rerun.init()] {
            put_frame(&frame, header.format, &mut out);
        }
        for run in record.runs() {
            put_frame(&rerun.run(&run.input), header.format, &mut out);
        }
        if record.fault.is_none() {
            out.push(tags::TERMINATE);
        }
        ended(record.fault, out)
    })
}

pub fn check(bytes: &[u8]) -> Ended {
    with_rerun(bytes, |record, _, mut rerun| {
        for (number, (frame, _)) in record.frames.iter().enumerate() {
            if let Some(place) = difference(number, frame, &given(&mut rerun, frame)) {
                let seen = record.runs().take((number + 1).saturating_sub(FIRST_RUN));
                return Ended::differs(format!("departs {place}\n{}", reports(seen)).into());
            }
        }
        match record.fault {
            Some(fault) => Ended::bad_record(0, fault, Vec::new()),
            None => {
                let count = record.runs().count();
                Ended::done(format!("genuine {count}\n{}", reports(record.runs())).into())
            }
        }
    })
}

pub fn upgrade(bytes: &[u8]) -> Ended {
    with_rerun(bytes, |record, header, mut rerun| {
        let mut out = Vec::new();
        put_header(2, header.job, &header.profile, &mut out);
        for (number, (frame, _)) in record.frames.iter().enumerate() {
            let given = given(&mut rerun, frame);
            if difference(number, frame, &given).is_some() {
                return Ended::differs(out);
            }
            // Behind Terminate the record has to be whole.
            if !matches!(frame, Frame::Terminate) || record.fault.is_none() {
                put_frame(&given, 2, &mut out);
            }
        }
        ended(record.fault, out)
    })
}
