//! What a recording asks of a job.

#[derive(Clone, Copy)]
pub enum Refusal {
    Prepare { code: u32 },
    Pool { pass: u8, element: u32, code: u32 },
    Conclude { code: u32 },
}

impl Refusal {
    /// The number of its phase, its pass and its element, which are 0 outside the pool, and its code.
    pub fn parts(self) -> (u8, u8, u32, u32) {
        match self {
            Refusal::Prepare { code } => (0, 0, 0, code),
            Refusal::Pool {
                pass,
                element,
                code,
            } => (1, pass, element, code),
            Refusal::Conclude { code } => (2, 0, 0, code),
        }
    }
}

/// What a job sees of one cycle.
pub struct Cycle<'a> {
    pub number: u32,
    pub next_time: Option<u64>,
    pub newest: &'a [Option<i64>],
}

pub trait Job {
    const NUMBER: u16;
    fn count(&self) -> u32;
    fn put_element(&self, element: u32, bytes: &mut Vec<u8>);
    /// The words that an element drew in the last finished cycle.
    fn draws(&self, element: u32) -> u32;
    /// Runs a cycle and appends its output. A refused cycle changes nothing.
    fn run(&mut self, cycle: &Cycle, output: &mut Vec<u8>) -> Result<(), Refusal>;
}
