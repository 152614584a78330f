//! A heavy job, for timing passes in which the work on the elements counts for all. It stands in no record.

use crate::cache::EventCache;
use crate::client::Client;
use crate::common::program::Failure;
use crate::common::random_words::Streams;
use crate::common::spelling::put;
use crate::container::Container;
use crate::job::{no_more, whole_param, BadParam, Code, Concluded, Job, Started, Worked, WorkedBy};
use crate::pool::{Crew, PassOf};
use crate::random::ElementRandom;
use std::io::Write;
use std::sync::atomic::AtomicUsize;
use std::sync::Arc;
use std::time::{Duration, Instant};

/// A number of elements, and of passes over them.
const CASES: [(usize, u32); 2] = [(10_000, 100), (65_536, 20)];

/// The words that an element draws in a pass.
const DRAWS: usize = 64;

const SEED: u64 = 0;

pub struct Heavy {
    elements: usize,
}

impl Job for Heavy {
    const NUMBER: u16 = 0;

    type Globals = ();

    /// What was folded of all words so far.
    type Element = u64;

    type Plan = ();

    /// The sum of the new elements.
    type Part = u64;

    fn make(params: &[i64], _events: usize) -> Result<Heavy, BadParam> {
        let elements = whole_param(params, 0, 1, 65_536)? as usize;
        no_more(params, 1)?;
        Ok(Heavy { elements })
    }

    fn start(&self, _client: &mut Client) -> Started<(), u64> {
        Started {
            globals: (),
            elements: (0..self.elements).map(|_| 0).collect(),
        }
    }

    fn prepare(
        &self,
        _globals: &(),
        _elements: &Container<u64>,
        _cache: &EventCache,
        _client: &mut Client,
    ) -> Result<(), Code> {
        Ok(())
    }

    fn passes(&self, _plan: &()) -> u8 {
        1
    }

    fn unit(&self) -> u64 {
        0
    }

    #[inline]
    fn run(
        &self,
        _plan: &(),
        _carry: &u64,
        _pass: u8,
        element: &u64,
        random: &mut ElementRandom,
    ) -> Result<WorkedBy<Heavy>, Code> {
        let fold = |state: u64, _| state.rotate_left(5) ^ random.get_random();
        let element = (0..DRAWS).fold(*element, fold);
        Ok(Worked {
            element,
            part: element,
        })
    }

    #[inline]
    fn merge(&self, left: u64, right: u64) -> u64 {
        left.wrapping_add(right)
    }

    #[inline]
    fn put_element(&self, element: &u64, bytes: &mut Vec<u8>) {
        put(element.to_be_bytes(), bytes);
    }

    fn conclude(&self, _globals: &(), _plan: &(), part: u64) -> Result<Concluded<()>, Code> {
        Ok(Concluded {
            globals: (),
            output: part.to_be_bytes().to_vec(),
        })
    }
}

/// Pass 0 of cycle 1 over these elements.
fn first_pass(job: &Arc<Heavy>, elements: &Arc<Container<u64>>) -> PassOf<Heavy> {
    PassOf {
        job: Arc::clone(job),
        plan: Arc::new(()),
        carry: Arc::new(job.unit()),
        number: 0,
        elements: Arc::clone(elements),
        streams: Streams::new(SEED, 1),
        earlier: Container::with_room(0),
        shows: false,
        next: AtomicUsize::new(0),
    }
}

/// The time of the first pass over so many elements, run again and again, and its part.
fn timed_passes(
    crew: &mut Crew<Heavy>,
    elements: usize,
    passes: u32,
) -> Result<(Duration, u64), Failure> {
    let job = Arc::new(Heavy::make(&[elements as i64], 0)?);
    let started = job.start(&mut Client::new(1, SEED));
    let elements = Arc::new(started.elements);
    let mut part = job.unit();
    let begun = Instant::now();
    for _ in 0..passes {
        let pass = Arc::new(first_pass(&job, &elements));
        match crew.run_pass(&pass) {
            Ok(done) => part = done.part,
            Err(_) => return Err(Failure::other("a pass is refused")),
        }
    }
    Ok((begun.elapsed(), part))
}

/// Prints how long passes of the heavy job take.
pub fn heavy(workers: usize, out: &mut impl Write) -> Result<(), Failure> {
    let mut crew = Crew::start(workers);
    for (elements, passes) in CASES {
        let (time, part) = timed_passes(&mut crew, elements, passes)?;
        writeln!(
            out,
            "{elements} elements, {workers} workers, {passes} passes: {time:?}, part {part}"
        )?;
    }
    crew.stop();
    Ok(())
}
