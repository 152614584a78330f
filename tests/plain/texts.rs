//! Records as text, and reports on their runs.

use crate::jobs::Refusal;
use crate::judging::job_name;
use crate::manifest::Manifest;
use crate::record::{Element, Frame, Header, Outcome, Run};
use std::fmt::Write;

fn hex(bytes: &[u8]) -> String {
    if bytes.is_empty() {
        return "-".into();
    }
    bytes.iter().map(|byte| format!("{byte:02x}")).collect()
}

pub fn header_lines(header: &Header) -> String {
    let profile = &header.profile;
    let mut text = String::new();
    if header.format == 2 {
        text += "format 2\n";
    }
    text += &format!(
        "job {}\nseed {}\ncycle_time {}\n",
        header.job, profile.seed, profile.cycle_time
    );
    let params: String = profile
        .params
        .iter()
        .map(|param| format!(" {param}"))
        .collect();
    text += &format!("params{}\n", if params.is_empty() { " -" } else { &params });
    for (number, event) in profile.events.iter().enumerate() {
        let policy = match (header.format, event.is_fresh) {
            (1, _) => "",
            (_, true) => " fresh",
            (_, false) => " last",
        };
        text += &format!("event {number} {} {}{policy}\n", event.name, event.capacity);
    }
    text
}

fn element_lines(elements: &[Element]) -> String {
    let mut text = String::new();
    for (number, element) in elements.iter().enumerate() {
        let draws = element
            .draws
            .map_or(String::new(), |draws| format!(" {draws}"));
        let _ = writeln!(text, "element {number} {}{draws}", hex(&element.bytes));
    }
    text
}

fn refusal_words(refusal: Refusal) -> String {
    let (phase, pass, element, code) = refusal.parts();
    let phase = ["prepare", "pool", "conclude"][usize::from(phase)];
    format!("{phase} {pass} {element} {code}")
}

fn time_word(time: Option<u64>) -> String {
    time.map_or("-".into(), |time| time.to_string())
}

fn run_lines(run: &Run, cycle: usize) -> String {
    let mut text = format!("run {cycle} time {}\n", time_word(run.input.time));
    for sample in &run.input.samples {
        let _ = writeln!(text, "sample {} {}", sample.event, sample.value);
    }
    text + &match &run.outcome {
        Outcome::Finished { elements, output } => {
            format!(
                "finished {}\n{}output {}\n",
                elements.len(),
                element_lines(elements),
                hex(output)
            )
        }
        Outcome::Refused(refusal) => format!("refused {}\n", refusal_words(*refusal)),
    }
}

/// The lines of the frame of a number.
pub fn frame_lines(number: usize, frame: &Frame) -> String {
    match frame {
        Frame::Register => "register\n".into(),
        Frame::Discover => "discover\n".into(),
        Frame::Init(elements) => format!("init {}\n{}", elements.len(), element_lines(elements)),
        Frame::Run(run) => run_lines(run, number - 2),
        Frame::Terminate => "terminate\n".into(),
    }
}

/// The reports on runs. That of a refusal leaves early, and so comes first.
pub fn reports<'a>(runs: impl Iterator<Item = &'a Run>) -> String {
    let (mut finished, mut refused, mut refusal) = (0, 0, None);
    let (mut gap, mut before): (Option<u64>, Option<u64>) = (None, None);
    for run in runs {
        match run.outcome {
            Outcome::Finished { .. } => finished += 1,
            Outcome::Refused(how) => {
                refused += 1;
                refusal = refusal.or(Some((finished + refused, how)));
            }
        }
        let time = run.input.time;
        if let (Some(before), Some(time)) = (before, time) {
            gap = gap.max(time.checked_sub(before));
        }
        before = time;
    }
    let gap = gap.map_or("none".into(), |gap| gap.to_string());
    let others = format!("count {finished} {refused}\ngap {gap}\n");
    match refusal {
        Some((cycle, how)) => format!("refusal {cycle} {}\n{others}", refusal_words(how)),
        None => others + "refusal none\n",
    }
}

fn needs_lines(name: &str, needs: Option<[u64; 4]>) -> String {
    let Some([instructions, begin, end, speedup]) = needs else {
        return format!("{name} none\n");
    };
    format!(
        "{name} instructions {instructions}\n{name} sequential_begin {begin}\n\
         {name} sequential_end {end}\n{name} speedup {speedup}\n"
    )
}

pub fn manifest_lines(manifest: &Manifest) -> String {
    let Manifest {
        job,
        workers,
        platform,
        needs,
        profile,
    } = manifest;
    let (job, time) = (job_name(*job), profile.cycle_time);
    let platform = platform.as_deref().unwrap_or("none");
    format!("job {job}\ncycle_time {time}\nworkers {workers}\nplatform {platform}\n")
        + &needs_lines("init", needs[0])
        + &needs_lines("run", needs[1])
}
