//! The filter bank: levels that follow the newest samples.

use crate::common::profile::Profile;
use crate::common::spelling::put;
use crate::jobs::{Cycle, Job, Refusal};

pub struct Bank {
    shift: u32,
    events: u32,
    levels: Vec<i64>,
}

impl Bank {
    pub fn new(profile: &Profile) -> Bank {
        Bank {
            shift: profile.params[1] as u32,
            events: profile.events.len() as u32,
            levels: vec![0; profile.params[0] as usize],
        }
    }
}

impl Job for Bank {
    const NUMBER: u16 = 1;

    fn count(&self) -> u32 {
        self.levels.len() as u32
    }

    fn put_element(&self, element: u32, bytes: &mut Vec<u8>) {
        if self.events >= 2 {
            put(((element % self.events) as u16).to_be_bytes(), bytes);
        }
        put(self.levels[element as usize].to_be_bytes(), bytes);
    }

    fn draws(&self, _element: u32) -> u32 {
        0
    }

    fn run(&mut self, cycle: &Cycle, output: &mut Vec<u8>) -> Result<(), Refusal> {
        if !cycle.newest.is_empty() {
            for (level, target) in self.levels.iter_mut().zip(cycle.newest.iter().cycle()) {
                if let Some(target) = target {
                    *level += (target - *level) >> self.shift;
                }
            }
        }
        let levels = || self.levels.iter().copied();
        let (sum, least, greatest) = (levels().sum::<i64>(), levels().min(), levels().max());
        put(sum.to_be_bytes(), output);
        put(least.unwrap_or(0).to_be_bytes(), output);
        put(greatest.unwrap_or(0).to_be_bytes(), output);
        Ok(())
    }
}
