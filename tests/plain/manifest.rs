//! A manifest, judged key by key.

use crate::common::profile::{Event, Profile};
use crate::judging::{bad_parameter, job_number};
use crate::toml::{self, Table, Value};
use std::ops::RangeInclusive;

const MOST_BYTES: usize = 65_536;
const MOST_TOLD: usize = 64;
const TOP_KEYS: [&str; 8] = [
    "job",
    "cycle_time_ns",
    "workers",
    "params",
    "event",
    "platform",
    "init_needs",
    "run_needs",
];
const EVENT_KEYS: [&str; 3] = ["name", "capacity", "policy"];
const NEEDS_KEYS: [&str; 4] = [
    "instructions",
    "sequential_begin",
    "sequential_end",
    "speedup_thousandths",
];
const NEEDS: [&str; 2] = ["init_needs", "run_needs"];

pub struct Manifest {
    pub job: u16,
    pub workers: u64,
    pub platform: Option<String>,
    /// The four needs of Init and of a run, where they are told.
    pub needs: [Option<[u64; 4]>; 2],
    pub profile: Profile,
}

/// What is wrong, as it is told behind `bad manifest: `.
type Judged<T> = Result<T, String>;

fn whole(value: Option<&Value>, key: &str, range: RangeInclusive<i64>) -> Judged<i64> {
    match value {
        None => Err(format!("missing {key}")),
        Some(&Value::Whole(number)) if range.contains(&number) => Ok(number),
        Some(Value::Whole(_)) => Err(format!("out of range {key}")),
        Some(_) => Err(format!("wrong kind {key}")),
    }
}

fn text<'a>(
    value: Option<&'a Value>,
    key: &str,
    is_good: impl Fn(&str) -> bool,
) -> Judged<&'a str> {
    match value {
        None => Err(format!("missing {key}")),
        Some(Value::Text(text)) if is_good(text) => Ok(text),
        Some(Value::Text(_)) => Err(format!("out of range {key}")),
        Some(_) => Err(format!("wrong kind {key}")),
    }
}

fn is_name(text: &str) -> bool {
    (1..=32).contains(&text.len())
        && text
            .bytes()
            .all(|byte| matches!(byte, b'a'..=b'z' | b'0'..=b'9' | b'_'))
}

fn is_platform(text: &str) -> bool {
    (1..=64).contains(&text.len()) && text.bytes().all(|byte| (0x20..=0x7e).contains(&byte))
}

fn params(root: &Table) -> Judged<Vec<i64>> {
    let values = match root.entries.get("params") {
        None => return Ok(Vec::new()),
        Some(Value::Array(values)) if values.len() > 16 => return Err("out of range params".into()),
        Some(Value::Array(values)) => values,
        Some(Value::Tables(tables)) if tables.len() > 16 => {
            return Err("out of range params".into())
        }
        Some(Value::Tables(_)) => return Err("wrong kind params.0".into()),
        Some(_) => return Err("wrong kind params".into()),
    };
    let numbered = (0..).zip(values);
    let take = |(number, value): (usize, _)| {
        whole(
            Some(value),
            &format!("params.{number}"),
            i64::MIN..=i64::MAX,
        )
    };
    numbered.map(take).collect()
}

fn event(number: usize, table: Option<&Table>) -> Judged<Event> {
    let table = table.ok_or(format!("wrong kind event.{number}"))?;
    let key = |name: &str| format!("event.{number}.{name}");
    let name = text(table.entries.get("name"), &key("name"), is_name)?;
    let capacity = whole(table.entries.get("capacity"), &key("capacity"), 1..=1_024)?;
    let is_policy = |text: &str| matches!(text, "last" | "fresh");
    let is_fresh = match table.entries.get("policy") {
        None => false,
        policy => text(policy, &key("policy"), is_policy)? == "fresh",
    };
    Ok(Event {
        name: name.to_string(),
        capacity: capacity as u16,
        is_fresh,
    })
}

/// The items of `event`, each a table or not.
fn event_tables(root: &Table) -> Judged<Vec<Option<&Table>>> {
    let table_of = |value| match value {
        &Value::Table(ref table) => Some(table),
        _ => None,
    };
    let tables: Vec<_> = match root.entries.get("event") {
        None => Vec::new(),
        Some(Value::Array(values)) => values.iter().map(table_of).collect(),
        Some(Value::Tables(tables)) => tables.iter().map(Some).collect(),
        Some(_) => return Err("wrong kind event".into()),
    };
    if tables.len() > 256 {
        return Err("out of range event".into());
    }
    Ok(tables)
}

fn platform(root: &Table) -> Judged<Option<String>> {
    let is_needed = NEEDS.iter().any(|needs| root.entries.contains_key(*needs));
    match root.entries.get("platform") {
        None if !is_needed => Ok(None),
        value => Ok(Some(text(value, "platform", is_platform)?.to_string())),
    }
}

fn needs(root: &Table, key: &str) -> Judged<Option<[u64; 4]>> {
    let table = match root.entries.get(key) {
        None => return Ok(None),
        Some(Value::Table(table)) => table,
        Some(_) => return Err(format!("wrong kind {key}")),
    };
    let mut needs = [0; 4];
    for (need, name) in needs.iter_mut().zip(NEEDS_KEYS) {
        let range = if name == "speedup_thousandths" {
            1..=1_000_000
        } else {
            0..=i64::MAX
        };
        *need = whole(table.entries.get(name), &format!("{key}.{name}"), range)? as u64;
    }
    Ok(Some(needs))
}

/// A key that no table knows, as it is told.
fn told_key(key: &str) -> String {
    let told = key.bytes().take(MOST_TOLD);
    told.map(|byte| {
        if byte.is_ascii_graphic() {
            byte.into()
        } else {
            '?'
        }
    })
    .collect()
}

fn refuse_unknown(table: &Table, name: &str, known: &[&str]) -> Judged<()> {
    match table
        .entries
        .keys()
        .find(|key| !known.contains(&key.as_str()))
    {
        None => Ok(()),
        Some(key) => Err(format!("unknown key {name}{}", told_key(key))),
    }
}

fn refuse_all_unknown(root: &Table, events: &[Option<&Table>]) -> Judged<()> {
    refuse_unknown(root, "", &TOP_KEYS)?;
    for (number, table) in events.iter().flatten().enumerate() {
        refuse_unknown(table, &format!("event.{number}."), &EVENT_KEYS)?;
    }
    for key in NEEDS {
        if let Some(Value::Table(table)) = root.entries.get(key) {
            refuse_unknown(table, &format!("{key}."), &NEEDS_KEYS)?;
        }
    }
    Ok(())
}

fn refuse_equal_names(events: &[Event]) -> Judged<()> {
    for (number, event) in events.iter().enumerate() {
        if events[..number]
            .iter()
            .any(|earlier| earlier.name == event.name)
        {
            return Err(format!("duplicate event {number}"));
        }
    }
    Ok(())
}

/// The manifest of a text, whose profile has this seed.
pub fn read(bytes: &[u8], seed: u64, is_strict: bool) -> Judged<Manifest> {
    if bytes.len() > MOST_BYTES {
        return Err("too long".into());
    }
    let root = toml::read(bytes).map_err(|_| "not toml".to_string())?;
    let job = text(root.entries.get("job"), "job", |_| true)?;
    let cycle_time = whole(
        root.entries.get("cycle_time_ns"),
        "cycle_time_ns",
        1..=i64::MAX,
    )?;
    let workers = whole(root.entries.get("workers"), "workers", 1..=64)?;
    let params = params(&root)?;
    let tables = event_tables(&root)?;
    let events = tables
        .iter()
        .enumerate()
        .map(|(number, &table)| event(number, table));
    let events = events.collect::<Judged<Vec<_>>>()?;
    let platform = platform(&root)?;
    let needs = [needs(&root, NEEDS[0])?, needs(&root, NEEDS[1])?];
    if is_strict {
        refuse_all_unknown(&root, &tables)?;
    }
    refuse_equal_names(&events)?;
    let job = job_number(job).ok_or("unknown job")?;
    if let Some(number) = bad_parameter(job, &params) {
        return Err(format!("bad parameter {number}"));
    }
    let profile = Profile {
        cycle_time: cycle_time as u64,
        seed,
        params,
        events,
    };
    Ok(Manifest {
        job,
        workers: workers as u64,
        platform,
        needs,
        profile,
    })
}
