//! The cases, each run to its end.

use crate::commands::{check, replay, salvage, show, upgrade, Part};
use crate::copies::{compare, vote, Copy};
use crate::ended::Ended;
use crate::manifest::Manifest;
use crate::recording::{chain, demo, needs, read_manifest, record};
use crate::running::{lane, twins};
use crate::words::{read, read_twin, Command, Read};
use std::fs;

/// A status that no program ends with, of a case that isn't one.
const NO_CASE: u8 = 255;

fn file(name: &str) -> Result<Vec<u8>, Ended> {
    fs::read(name).map_err(|_| Ended::read_fault())
}

fn manifest(name: &str, command: &Command) -> Result<Manifest, Ended> {
    let seed = command.number("--seed").unwrap_or(0);
    read_manifest(&file(name)?, seed, command.has("--strict"))
}

fn copies(names: &[&str]) -> Result<Vec<Copy>, Ended> {
    names.iter().map(|name| Ok(Copy::of(file(name)?))).collect()
}

fn part_of(command: &Command) -> Part {
    match command.number("--cycle") {
        Some(cycle) => Part::Cycle(cycle as usize),
        None if command.has("--reports") => Part::Reports,
        None => Part::All,
    }
}

fn run_command(command: &Command) -> Result<Ended, Ended> {
    let names = &command.names[..];
    Ok(match command.word {
        "demo" => demo(&file(names[0])?),
        "record" => record(&manifest(names[0], command)?, &file(names[1])?),
        "show" => show(&file(names[0])?, part_of(command)),
        "replay" => replay(&file(names[0])?),
        "check" => check(&file(names[0])?),
        "upgrade" => upgrade(&file(names[0])?),
        "salvage" => salvage(&file(names[0])?, command.has("--reports")),
        "compare" => compare(&copies(names)?),
        "vote" => vote(&copies(names)?, command.has("--dissent")),
        "needs" => needs(&manifest(names[0], command)?),
        _ => {
            let first = manifest(names[0], command)?;
            let second = manifest(names[1], command)?;
            chain(&first, &second, &file(names[2])?)
        }
    })
}

fn run_twins(command: &Command) -> Result<Ended, Ended> {
    let manifest = manifest(command.names[0], command)?;
    let flip = command.options.get("--flip");
    let flip = flip.map(|numbers| (numbers[0], numbers[1]));
    Ok(twins(&manifest, &file(command.names[1])?, flip))
}

fn ended(read: Read, run: impl FnOnce(&Command) -> Result<Ended, Ended>) -> Ended {
    match read {
        Read::Command(command) => run(&command).unwrap_or_else(|ended| ended),
        Read::Text => Ended::text(),
        Read::Bad => Ended::bad_words(),
    }
}

/// Runs a case: the name of a program, and its words.
pub fn run(words: &[&[u8]]) -> Ended {
    let texts: Result<Vec<&str>, _> = words.iter().map(|word| std::str::from_utf8(word)).collect();
    match texts.as_deref() {
        Err(_) => Ended::bad_words(),
        Ok(["det", words @ ..]) => ended(read(words), run_command),
        Ok(["det_twin", words @ ..]) => ended(read_twin(words), run_twins),
        // Copies as child processes write what `record` writes, and end as it ends.
        Ok(["det_lane", _, _, names @ ..]) => {
            lane(ended(read(&[&["record"], names].concat()), run_command))
        }
        Ok(_) => Ended::new(NO_CASE, "no case", Vec::new()),
    }
}
