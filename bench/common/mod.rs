//! What the plain programs share: their words, the stimulus, random words, and the spelling of headers and inputs.

pub mod profile;
pub mod program;
pub mod random_words;
pub mod spelling;
pub mod stimulus;

/// The greatest value of a sample, of a level and of a coordinate; its negative is the least.
pub const MOST_VALUE: i64 = 1_000_000_000_000;

/// The most cycles of a run, and the most samples that arrive in one.
pub const MOST_CYCLES: u32 = 1_000_000;
pub const MOST_SAMPLES: usize = 4_096;
