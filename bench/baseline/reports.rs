//! The reports on the cycles of a record.

use crate::jobs::Refusal;
use crate::reading::{Outcome, Run};
use crate::text::{put_line, put_number, put_word};

/// What was seen of the runs so far.
#[derive(Default)]
pub struct Reports {
    finished: u64,
    refused: u64,
    last_time: Option<u64>,
    greatest_gap: Option<u64>,
    /// The number of the first refused run.
    first_refusal: Option<(u64, Refusal)>,
}

/// The step from one time to the next, where both are there and it doesn't fall.
fn step(before: Option<u64>, time: Option<u64>) -> Option<u64> {
    time?.checked_sub(before?)
}

/// Appends where a cycle was refused, and its code.
pub fn put_refusal(refusal: Refusal, text: &mut Vec<u8>) {
    let (phase, pass, element, code) = refusal.parts();
    let phase = ["prepare", "pool", "conclude"][usize::from(phase)];
    put_line(phase, &[pass.into(), element.into(), code.into()], text);
}

impl Reports {
    pub fn see(&mut self, run: &Run) {
        match run.outcome {
            Outcome::Finished { .. } => self.finished += 1,
            Outcome::Refused(refusal) => {
                self.refused += 1;
                let number = self.finished + self.refused;
                self.first_refusal.get_or_insert((number, refusal));
            }
        }
        let time = run.input.time;
        self.greatest_gap = self.greatest_gap.max(step(self.last_time, time));
        self.last_time = time;
    }

    /// Appends the reports. That of a refusal comes first, and that of none last.
    pub fn put(&self, text: &mut Vec<u8>) {
        if let Some((number, refusal)) = self.first_refusal {
            put_word("refusal ", text);
            put_number(number, text);
            text.push(b' ');
            put_refusal(refusal, text);
        }
        put_line("count", &[self.finished, self.refused], text);
        match self.greatest_gap {
            Some(gap) => put_line("gap", &[gap], text),
            None => put_word("gap none\n", text),
        }
        if self.first_refusal.is_none() {
            put_word("refusal none\n", text);
        }
    }
}
