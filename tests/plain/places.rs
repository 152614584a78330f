//! Where two frames part first.

use crate::common::profile::Input;
use crate::record::{Element, Frame, Outcome, Run};

/// Whether two elements are equal. Draws that one of them doesn't tell, as in format 1, aren't
/// compared.
fn is_equal(left: &Element, right: &Element) -> bool {
    let have_equal_draws = match (left.draws, right.draws) {
        (Some(draws), Some(other)) => draws == other,
        _ => true,
    };
    left.bytes == right.bytes && have_equal_draws
}

/// The least element that differs, or that only one list has.
fn element(left: &[Element], right: &[Element]) -> Option<usize> {
    let equal = left
        .iter()
        .zip(right)
        .take_while(|(left, right)| is_equal(left, right))
        .count();
    (equal < left.len().max(right.len())).then_some(equal)
}

fn samples(input: &Input) -> Vec<(u16, i64)> {
    input
        .samples
        .iter()
        .map(|sample| (sample.event, sample.value))
        .collect()
}

fn in_outcomes(left: &Outcome, right: &Outcome, cycle: usize) -> Option<String> {
    match (left, right) {
        (
            Outcome::Finished { elements, output },
            Outcome::Finished {
                elements: others,
                output: other,
            },
        ) => match element(elements, others) {
            Some(number) => Some(format!("element {cycle} {number}")),
            None => (output != other).then(|| format!("output {cycle}")),
        },
        (Outcome::Refused(refusal), Outcome::Refused(other))
            if refusal.parts() == other.parts() =>
        {
            None
        }
        _ => Some(format!("result {cycle}")),
    }
}

fn in_runs(left: &Run, right: &Run, cycle: usize) -> Option<String> {
    if left.input.time != right.input.time {
        return Some(format!("time {cycle}"));
    }
    if samples(&left.input) != samples(&right.input) {
        return Some(format!("samples {cycle}"));
    }
    in_outcomes(&left.outcome, &right.outcome, cycle)
}

/// The place at which two frames of a number part first, or none where they are equal.
pub fn difference(number: usize, left: &Frame, right: &Frame) -> Option<String> {
    match (left, right) {
        (Frame::Init(elements), Frame::Init(others)) => {
            element(elements, others).map(|element| format!("element 0 {element}"))
        }
        (Frame::Run(run), Frame::Run(other)) => in_runs(run, other, number - 2),
        (Frame::Register, Frame::Register)
        | (Frame::Discover, Frame::Discover)
        | (Frame::Terminate, Frame::Terminate) => None,
        _ => Some(format!("kind {number}")),
    }
}
