//! The words of a case, read as `docs/FORMATS.md` says.

use std::collections::BTreeMap;

/// What words of `det` or of `det_twin` are.
pub enum Read<'a> {
    Command(Command<'a>),
    /// They ask for a text of the program.
    Text,
    Bad,
}

/// The names of a command, and its options with their numbers.
pub struct Command<'a> {
    pub word: &'a str,
    pub names: Vec<&'a str>,
    pub options: BTreeMap<&'a str, Vec<u64>>,
}

impl Command<'_> {
    pub fn has(&self, option: &str) -> bool {
        self.options.contains_key(option)
    }

    /// The number of an option that has one.
    pub fn number(&self, option: &str) -> Option<u64> {
        self.options.get(option).map(|numbers| numbers[0])
    }
}

/// What a command of `det` takes: the least and the greatest number of its names, and its options.
const COMMANDS: [(&str, usize, usize, &[&str]); 11] = [
    ("demo", 1, 1, &[]),
    ("record", 2, 2, &["--seed", "--workers", "--strict"]),
    ("show", 1, 1, &["--reports", "--cycle", "--json"]),
    ("replay", 1, 1, &["--workers"]),
    ("check", 1, 1, &["--workers"]),
    ("upgrade", 1, 1, &["--workers"]),
    ("compare", 2, 8, &[]),
    ("vote", 3, 7, &["--dissent"]),
    ("salvage", 1, 1, &["--reports"]),
    ("chain", 3, 3, &["--seed", "--workers", "--strict"]),
    ("needs", 1, 1, &["--strict"]),
];
/// The command that no case runs. Its page can be asked for.
const OTHER: &str = "sim";

/// A decimal number in its one spelling, in a range.
fn number(word: &str, least: u64, most: u64) -> Option<u64> {
    let is_decimal = word.bytes().all(|byte| byte.is_ascii_digit());
    let has_needless_zero = word.len() > 1 && word.starts_with('0');
    if !is_decimal || has_needless_zero {
        return None;
    }
    word.parse()
        .ok()
        .filter(|number| (least..=most).contains(number))
}

fn is_name(word: &str) -> bool {
    !word.is_empty() && !word.starts_with('-')
}

/// The range of each number behind an option of `det`.
fn ranges(option: &str) -> &'static [(u64, u64)] {
    match option {
        "--seed" => &[(0, u64::MAX)],
        "--workers" => &[(1, 64)],
        "--cycle" => &[(1, 1_000_000)],
        _ => &[],
    }
}

fn read_command<'a>(words: &[&'a str]) -> Option<Command<'a>> {
    let (&word, others) = words.split_first()?;
    let &(_, least, most, known) = COMMANDS.iter().find(|(name, ..)| *name == word)?;
    let (mut names, mut options) = (Vec::new(), BTreeMap::new());
    let mut others = others.iter();
    while let Some(&other) = others.next() {
        if !known.contains(&other) {
            names.push(other);
            continue;
        }
        let ranges = ranges(other).iter();
        let numbers = ranges.map(|&(least, most)| number(others.next()?, least, most));
        if options
            .insert(other, numbers.collect::<Option<_>>()?)
            .is_some()
        {
            return None;
        }
    }
    let is_good = (least..=most).contains(&names.len()) && names.iter().all(|name| is_name(name));
    let has = |option: &str| options.contains_key(option);
    let asks_twice = has("--reports") && (has("--cycle") || has("--json"));
    (is_good && !asks_twice).then_some(Command {
        word,
        names,
        options,
    })
}

fn is_page(word: &str) -> bool {
    word == OTHER || COMMANDS.iter().any(|(name, ..)| *name == word)
}

fn asks_for_text(words: &[&str]) -> bool {
    match *words {
        ["--help" | "-h" | "help" | "--version" | "-V" | "version"] => true,
        ["--help" | "help", command] => is_page(command),
        [command, "--help"] => is_page(command),
        _ => false,
    }
}

/// The words behind `det`.
pub fn read<'a>(words: &[&'a str]) -> Read<'a> {
    if asks_for_text(words) {
        return Read::Text;
    }
    read_command(words).map_or(Read::Bad, Read::Command)
}

fn read_twin_command<'a>(words: &[&'a str]) -> Option<Command<'a>> {
    let [word, manifest, stimulus, options @ ..] = words else {
        return None;
    };
    let copies = number(word, 2, 8)?;
    let mut found = BTreeMap::new();
    let mut words = options.iter();
    while let Some(&option) = words.next() {
        let numbers = match option {
            "--strict" => Vec::new(),
            "--flip" => vec![
                number(words.next()?, 0, copies - 1)?,
                number(words.next()?, 0, u64::from(u32::MAX))?,
            ],
            _ => return None,
        };
        if found.insert(option, numbers).is_some() {
            return None;
        }
    }
    let names = vec![*manifest, *stimulus];
    let is_good = names.iter().all(|name| is_name(name));
    is_good.then_some(Command {
        word,
        names,
        options: found,
    })
}

/// The words behind `det_twin`.
pub fn read_twin<'a>(words: &[&'a str]) -> Read<'a> {
    if matches!(
        words,
        ["--help" | "-h" | "help" | "--version" | "-V" | "version"]
    ) {
        return Read::Text;
    }
    read_twin_command(words).map_or(Read::Bad, Read::Command)
}
