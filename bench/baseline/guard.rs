//! The guard: channels that hold their last good sample.

use crate::common::profile::Profile;
use crate::common::spelling::{put, put_time};
use crate::jobs::{Cycle, Job, Refusal};

#[derive(Clone, Copy, Default)]
struct Held {
    value: i64,
    streak: u16,
}

pub struct Guard {
    low: i64,
    high: i64,
    limit: u16,
    most: usize,
    total: u64,
    channels: Vec<Held>,
    /// The channels of the cycle under way, and the numbers of the corrected ones.
    next: Vec<Held>,
    corrected: Vec<u32>,
}

impl Guard {
    pub fn new(profile: &Profile) -> Guard {
        let count = profile.params[0] as usize;
        Guard {
            low: profile.params[1],
            high: profile.params[2],
            limit: profile.params[3] as u16,
            most: profile.params[4] as usize,
            total: 0,
            channels: vec![Held::default(); count],
            next: Vec::with_capacity(count),
            corrected: Vec::new(),
        }
    }

    /// Looks at every channel's sample. Stops at the first channel that refuses.
    fn look(&mut self, newest: &[Option<i64>]) -> Result<(), Refusal> {
        self.next.clear();
        self.corrected.clear();
        if newest.is_empty() {
            self.next.extend_from_slice(&self.channels);
            return Ok(());
        }
        for ((number, &held), sample) in (0..).zip(&self.channels).zip(newest.iter().cycle()) {
            self.next.push(match *sample {
                None => held,
                Some(value) if self.low <= value && value <= self.high => Held { value, streak: 0 },
                Some(_) if held.streak + 1 == self.limit => {
                    return Err(Refusal::Pool {
                        pass: 0,
                        element: number,
                        code: 1,
                    });
                }
                Some(_) => {
                    self.corrected.push(number);
                    Held {
                        streak: held.streak + 1,
                        ..held
                    }
                }
            });
        }
        Ok(())
    }
}

impl Job for Guard {
    const NUMBER: u16 = 3;

    fn count(&self) -> u32 {
        self.channels.len() as u32
    }

    fn put_element(&self, element: u32, bytes: &mut Vec<u8>) {
        let held = self.channels[element as usize];
        put(element.to_be_bytes(), bytes);
        put(held.value.to_be_bytes(), bytes);
        put(held.streak.to_be_bytes(), bytes);
    }

    fn draws(&self, _element: u32) -> u32 {
        0
    }

    fn run(&mut self, cycle: &Cycle, output: &mut Vec<u8>) -> Result<(), Refusal> {
        self.look(cycle.newest)?;
        if self.corrected.len() > self.most {
            return Err(Refusal::Conclude { code: 2 });
        }
        std::mem::swap(&mut self.channels, &mut self.next);
        self.total = self.total.saturating_add(self.corrected.len() as u64);
        put(self.total.to_be_bytes(), output);
        put((self.corrected.len() as u32).to_be_bytes(), output);
        for &number in &self.corrected {
            put(number.to_be_bytes(), output);
        }
        put_time(cycle.next_time, output);
        Ok(())
    }
}
