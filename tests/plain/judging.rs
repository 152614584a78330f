//! Which parameters the jobs take.

use crate::common::MOST_VALUE;

/// The number of the job of a name.
pub fn job_number(name: &str) -> Option<u16> {
    match name {
        "bank" => Some(1),
        "cloud" => Some(2),
        "guard" => Some(3),
        _ => None,
    }
}

pub fn job_name(number: u16) -> &'static str {
    ["", "bank", "cloud", "guard"][usize::from(number)]
}

/// The least and the greatest value of each parameter of a job. `high` of a guard isn't below its
/// `low`.
fn ranges(job: u16, params: &[i64]) -> Vec<(i64, i64)> {
    let low = params.get(1).copied().unwrap_or(0);
    match job {
        1 => vec![(1, 65_536), (0, 16)],
        2 => vec![
            (1, 65_536),
            (1, 1_000_000),
            (0, 1_000_000),
            (0, 4 * MOST_VALUE),
        ],
        _ => vec![
            (1, 65_536),
            (-MOST_VALUE, MOST_VALUE),
            (low, MOST_VALUE),
            (1, 1_000),
            (0, 65_536),
        ],
    }
}

/// The least parameter that a job doesn't take, also where it isn't there or is one too many.
pub fn bad_parameter(job: u16, params: &[i64]) -> Option<usize> {
    let ranges = ranges(job, params);
    let is_good = |(&param, &(least, most)): (&i64, &(i64, i64))| least <= param && param <= most;
    let good = params
        .iter()
        .zip(&ranges)
        .take_while(|&pair| is_good(pair))
        .count();
    (good < ranges.len().max(params.len())).then_some(good)
}
