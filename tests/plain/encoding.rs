//! Frames as bytes.

use crate::common::spelling::{put, put_input, tags};
use crate::record::{Element, Frame, Outcome, Run};

fn put_elements(elements: &[Element], format: u16, bytes: &mut Vec<u8>) {
    put((elements.len() as u32).to_be_bytes(), bytes);
    for element in elements {
        put((element.bytes.len() as u16).to_be_bytes(), bytes);
        bytes.extend_from_slice(&element.bytes);
        if let (Some(draws), 2) = (element.draws, format) {
            put(draws.to_be_bytes(), bytes);
        }
    }
}

fn put_run(run: &Run, format: u16, bytes: &mut Vec<u8>) {
    put_input(&run.input, bytes);
    match &run.outcome {
        Outcome::Finished { elements, output } => {
            bytes.push(0);
            put_elements(elements, format, bytes);
            put((output.len() as u32).to_be_bytes(), bytes);
            bytes.extend_from_slice(output);
        }
        Outcome::Refused(refusal) => {
            let (phase, pass, element, code) = refusal.parts();
            bytes.extend_from_slice(&[1, phase, pass]);
            put(element.to_be_bytes(), bytes);
            put(code.to_be_bytes(), bytes);
        }
    }
}

/// Appends a frame in a format, 1 or 2.
pub fn put_frame(frame: &Frame, format: u16, bytes: &mut Vec<u8>) {
    match frame {
        Frame::Register => bytes.push(tags::REGISTER),
        Frame::Discover => bytes.push(tags::DISCOVER),
        Frame::Init(elements) => {
            bytes.push(tags::INIT);
            put_elements(elements, format, bytes);
        }
        Frame::Run(run) => {
            bytes.push(tags::RUN);
            put_run(run, format, bytes);
        }
        Frame::Terminate => bytes.push(tags::TERMINATE),
    }
}
