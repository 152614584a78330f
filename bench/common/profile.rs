//! What a run is given.

use super::program::Failure;

pub struct Event {
    pub name: String,
    pub capacity: u16,
    pub is_fresh: bool,
}

pub struct Profile {
    pub cycle_time: u64,
    pub seed: u64,
    pub params: Vec<i64>,
    pub events: Vec<Event>,
}

impl Profile {
    /// The profile that these words spell. Its values are taken as good.
    pub fn of_words(
        cycle_time: &str,
        params: &str,
        events: &str,
        seed: &str,
    ) -> Result<Profile, Failure> {
        Ok(Profile {
            cycle_time: cycle_time.parse()?,
            seed: seed.parse()?,
            params: parse_list(params, |param| Ok(param.parse()?))?,
            events: parse_list(events, parse_event)?,
        })
    }
}

#[derive(Clone, Copy)]
pub struct Sample {
    pub event: u16,
    pub value: i64,
}

/// What one cycle is given: its time and the samples that arrive in it.
#[derive(Default)]
pub struct Input {
    pub time: Option<u64>,
    pub samples: Vec<Sample>,
}

fn parse_event(text: &str) -> Result<Event, Failure> {
    let parts: Vec<&str> = text.split(':').collect();
    let [name, capacity, policy] = parts[..] else {
        return Err(Failure::other(format!("no event: {text}")));
    };
    Ok(Event {
        name: name.to_string(),
        capacity: capacity.parse()?,
        is_fresh: policy == "fresh",
    })
}

/// The parts of a list that commas part, or none for `-`.
fn parse_list<T>(
    text: &str,
    parse: impl Fn(&str) -> Result<T, Failure>,
) -> Result<Vec<T>, Failure> {
    if text == "-" {
        return Ok(Vec::new());
    }
    text.split(',').map(parse).collect()
}
