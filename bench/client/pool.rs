//! One pass over the elements, on one thread or on several that are kept over the whole run.

use crate::common::random_words::Streams;
use crate::container::{Container, BLOCK};
use crate::frames::put_drawn;
use crate::job::Job;
use crate::random::ElementRandom;
use std::hint;
use std::ops::Range;
use std::sync::atomic::{AtomicUsize, Ordering};
use std::sync::mpsc::{sync_channel, Receiver, SyncSender};
use std::sync::Arc;
use std::thread::{self, JoinHandle};

/// The looks for a message before a thread waits for it.
const LOOKS: usize = 20_000;

/// A pass that is to be run, by whoever claims its blocks.
pub struct PassOf<J: Job> {
    pub job: Arc<J>,
    pub plan: Arc<J::Plan>,
    /// The part of the pass before, or the unit.
    pub carry: Arc<J::Part>,
    pub number: u8,
    pub elements: Arc<Container<J::Element>>,
    pub streams: Streams,
    /// The words that each element drew in the passes before. There are none in the first pass.
    pub earlier: Container<u32>,
    /// Whether the new elements are spelled, as they are in the last pass of a cycle.
    pub shows: bool,
    /// The block that is claimed next.
    pub next: AtomicUsize,
}

/// What a block leaves: its new elements, the words that each drew in all passes so far, and its parts joined.
pub struct BlockDone<E, P> {
    elements: Vec<E>,
    draws: Vec<u32>,
    part: P,
}

/// What a pass leaves.
pub struct PassDone<E, P> {
    pub elements: Container<E>,
    pub draws: Container<u32>,
    pub part: P,
    /// The new elements as a frame has them, where the pass shows them.
    pub shown: Vec<u8>,
}

#[derive(Clone, Copy)]
pub struct Refusal {
    pub element: u32,
    pub code: u32,
}

/// A block that a worker ran, and its place in what this worker spelled.
struct Ran<E, P> {
    number: usize,
    block: BlockDone<E, P>,
    spelled: Range<usize>,
}

/// What one worker leaves of a pass: its blocks, and their spelling one behind another.
struct Share<E, P> {
    blocks: Vec<Ran<E, P>>,
    spelled: Vec<u8>,
}

pub type PassResult<J> = Result<PassDone<<J as Job>::Element, <J as Job>::Part>, Refusal>;
type PassDoneOf<J> = PassDone<<J as Job>::Element, <J as Job>::Part>;
type BlockOf<J> = BlockDone<<J as Job>::Element, <J as Job>::Part>;
type ShareOf<J> = Share<<J as Job>::Element, <J as Job>::Part>;
type ShareResult<J> = Result<ShareOf<J>, Refusal>;

impl<J: Job> PassOf<J> {
    fn blocks(&self) -> usize {
        self.elements.blocks().len()
    }

    /// Runs the elements of a block in order.
    fn run_block(&self, number: usize) -> Result<BlockOf<J>, Refusal> {
        let block = &self.elements.blocks()[number];
        let mut elements = Vec::with_capacity(block.len());
        let mut draws = Vec::with_capacity(block.len());
        let mut part = self.job.unit();
        for (element, value) in ((number * BLOCK) as u32..).zip(block) {
            let words = self.streams.element(u64::from(self.number), element);
            let mut random = ElementRandom::new(words);
            let worked = self
                .job
                .run(&self.plan, &self.carry, self.number, value, &mut random)
                .map_err(|code| Refusal { element, code })?;
            elements.push(worked.element);
            draws.push(random.draws());
            part = self.job.merge(part, worked.part);
        }
        if let Some(earlier) = self.earlier.blocks().get(number) {
            for (draws, earlier) in draws.iter_mut().zip(earlier) {
                *draws += earlier;
            }
        }
        Ok(BlockDone {
            elements,
            draws,
            part,
        })
    }

    /// Appends the elements of a block as the frame has them, where the pass shows them.
    fn spell(&self, block: &BlockOf<J>, bytes: &mut Vec<u8>) {
        if !self.shows {
            return;
        }
        for (element, &draws) in block.elements.iter().zip(&block.draws) {
            put_drawn(|bytes| self.job.put_element(element, bytes), draws, bytes);
        }
    }

    /// A pass of which no block is there yet, with room for what it shows where the new elements are as long as the
    /// first old one.
    fn begun(&self) -> PassDoneOf<J> {
        let mut shown = Vec::new();
        if let Some(first) = self.elements.iter().next().filter(|_| self.shows) {
            put_drawn(|bytes| self.job.put_element(first, bytes), 0, &mut shown);
            let room = shown.len() * self.elements.len();
            shown.clear();
            shown.reserve_exact(room);
        }
        PassDone {
            elements: Container::with_room(self.elements.len()),
            draws: Container::with_room(self.elements.len()),
            part: self.job.unit(),
            shown,
        }
    }

    /// Adds a block behind those before it, all but its spelling.
    fn join(&self, done: &mut PassDoneOf<J>, block: BlockOf<J>) {
        let before = std::mem::replace(&mut done.part, self.job.unit());
        done.elements.push_block(block.elements);
        done.draws.push_block(block.draws);
        done.part = self.job.merge(before, block.part);
    }

    /// Runs all blocks one after another, and spells each behind the one before it.
    fn run_in_order(&self) -> PassResult<J> {
        let mut done = self.begun();
        for number in 0..self.blocks() {
            let block = self.run_block(number)?;
            self.spell(&block, &mut done.shown);
            self.join(&mut done, block);
        }
        Ok(done)
    }

    /// Claims, runs and spells blocks until none is left, given memory for what is spelled. After a refusal no more are
    /// claimed: every block before the refused one was claimed before it, so the least refusal is found.
    fn work(&self, mut spelled: Vec<u8>) -> ShareResult<J> {
        spelled.clear();
        let mut blocks = Vec::new();
        loop {
            let number = self.next.fetch_add(1, Ordering::Relaxed);
            if number >= self.blocks() {
                return Ok(Share { blocks, spelled });
            }
            match self.run_block(number) {
                Ok(block) => {
                    let from = spelled.len();
                    self.spell(&block, &mut spelled);
                    let spelled = from..spelled.len();
                    blocks.push(Ran {
                        number,
                        block,
                        spelled,
                    });
                }
                Err(refusal) => {
                    self.next.fetch_max(self.blocks(), Ordering::Relaxed);
                    return Err(refusal);
                }
            }
        }
    }

    /// All blocks together, in their order. Elements and draws are moved, and what was spelled is copied.
    fn gather(&self, shares: &mut [ShareOf<J>]) -> PassDoneOf<J> {
        let mut places = Vec::new();
        places.resize_with(self.blocks(), || None);
        for (worker, share) in shares.iter_mut().enumerate() {
            for ran in share.blocks.drain(..) {
                let number = ran.number;
                places[number] = Some((worker, ran));
            }
        }
        let mut done = self.begun();
        for place in places {
            let (worker, ran) = place.expect("each block was run");
            let spelled = &shares[worker].spelled[ran.spelled];
            done.shown.extend_from_slice(spelled);
            self.join(&mut done, ran.block);
        }
        done
    }
}

/// A message, looked for a while and then waited for.
fn received<T>(messages: &Receiver<T>) -> Option<T> {
    for _ in 0..LOOKS {
        if let Ok(message) = messages.try_recv() {
            return Some(message);
        }
        hint::spin_loop();
    }
    messages.recv().ok()
}

/// A pass for a kept thread, and memory for what it spells.
struct Task<J: Job> {
    pass: Arc<PassOf<J>>,
    spare: Vec<u8>,
}

impl<J: Job> Task<J> {
    /// Works at the pass, and gives it up before the answer goes out.
    fn run(self) -> ShareResult<J> {
        self.pass.work(self.spare)
    }
}

/// A thread that runs what it is given until the other end is gone.
struct Kept<J: Job> {
    tasks: SyncSender<Task<J>>,
    shares: Receiver<ShareResult<J>>,
    thread: JoinHandle<()>,
}

impl<J: Job + 'static> Kept<J> {
    fn start() -> Kept<J> {
        let (tasks, taken) = sync_channel::<Task<J>>(1);
        let (given, shares) = sync_channel(1);
        let thread = thread::spawn(move || {
            while let Some(task) = received(&taken) {
                if given.send(task.run()).is_err() {
                    return;
                }
            }
        });
        Kept {
            tasks,
            shares,
            thread,
        }
    }
}

/// The threads of a run. The caller's is one of the workers.
pub struct Crew<J: Job> {
    kept: Vec<Kept<J>>,
    /// Memory in which workers spelled earlier passes.
    spare: Vec<Vec<u8>>,
}

impl<J: Job + 'static> Crew<J> {
    /// A crew of so many workers, as far as there are processors for them.
    pub fn start(workers: usize) -> Crew<J> {
        let processors = thread::available_parallelism().map_or(1, usize::from);
        Crew {
            kept: (1..workers.min(processors))
                .map(|_| Kept::start())
                .collect(),
            spare: Vec::new(),
        }
    }

    /// Runs one pass. No more threads are used than there are blocks.
    pub fn run_pass(&mut self, pass: &Arc<PassOf<J>>) -> PassResult<J> {
        match self.kept.len().min(pass.blocks().saturating_sub(1)) {
            0 => pass.run_in_order(),
            others => self.run_shared(others, pass),
        }
    }

    /// Runs a pass on this thread and so many others.
    fn run_shared(&mut self, others: usize, pass: &Arc<PassOf<J>>) -> PassResult<J> {
        for kept in &self.kept[..others] {
            let task = Task {
                pass: Arc::clone(pass),
                spare: self.spare.pop().unwrap_or_default(),
            };
            kept.tasks.send(task).expect("a worker ended");
        }
        let mut results = vec![pass.work(self.spare.pop().unwrap_or_default())];
        for kept in &self.kept[..others] {
            results.push(received(&kept.shares).expect("a worker ended"));
        }
        let refusals = results.iter().filter_map(|result| result.as_ref().err());
        if let Some(&least) = refusals.min_by_key(|refusal| refusal.element) {
            return Err(least);
        }
        let mut shares: Vec<ShareOf<J>> = results.into_iter().flatten().collect();
        let done = pass.gather(&mut shares);
        let spare = shares.into_iter().map(|share| share.spelled);
        self.spare.extend(spare);
        Ok(done)
    }

    /// Ends the threads.
    pub fn stop(self) {
        for kept in self.kept {
            drop(kept.tasks);
            kept.thread.join().expect("a worker panicked");
        }
    }
}
