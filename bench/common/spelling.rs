//! The spelling of headers and of inputs.

use super::profile::{Input, Profile};

/// What each record begins with.
pub const MAGIC: &[u8] = b"DETREC";

/// The format of the records that are made today.
pub const FORMAT: u16 = 2;

/// What each kind of frame begins with.
pub mod tags {
    pub const REGISTER: u8 = 1;
    pub const DISCOVER: u8 = 2;
    pub const INIT: u8 = 3;
    pub const RUN: u8 = 4;
    pub const TERMINATE: u8 = 5;
}

pub fn put<const N: usize>(part: [u8; N], bytes: &mut Vec<u8>) {
    bytes.extend_from_slice(&part);
}

pub fn put_time(time: Option<u64>, bytes: &mut Vec<u8>) {
    bytes.push(u8::from(time.is_some()));
    if let Some(time) = time {
        put(time.to_be_bytes(), bytes);
    }
}

/// Appends the header of a record of a format, 1 or 2, given the job's number.
pub fn put_header(format: u16, number: u16, profile: &Profile, bytes: &mut Vec<u8>) {
    bytes.extend_from_slice(MAGIC);
    put(format.to_be_bytes(), bytes);
    put(number.to_be_bytes(), bytes);
    put(profile.seed.to_be_bytes(), bytes);
    put(profile.cycle_time.to_be_bytes(), bytes);
    put((profile.params.len() as u16).to_be_bytes(), bytes);
    for &param in &profile.params {
        put(param.to_be_bytes(), bytes);
    }
    put((profile.events.len() as u16).to_be_bytes(), bytes);
    for event in &profile.events {
        put(event.capacity.to_be_bytes(), bytes);
        bytes.push(event.name.len() as u8);
        bytes.extend_from_slice(event.name.as_bytes());
        if format == FORMAT {
            bytes.push(u8::from(event.is_fresh));
        }
    }
}

/// Appends the time of a cycle, and the samples that arrived in it.
pub fn put_input(input: &Input, bytes: &mut Vec<u8>) {
    put_time(input.time, bytes);
    put((input.samples.len() as u32).to_be_bytes(), bytes);
    for sample in &input.samples {
        put(sample.event.to_be_bytes(), bytes);
        put(sample.value.to_be_bytes(), bytes);
    }
}
