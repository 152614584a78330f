//! Copies of a record side by side.

use crate::ended::Ended;
use crate::places::difference;
use crate::record::Record;

/// A record with its bytes.
pub struct Copy {
    pub bytes: Vec<u8>,
    pub record: Record,
}

/// What stands in a row of a copy: row 0 is the header, row F + 1 is frame F, then comes the end or
/// the fault.
#[derive(Clone, Copy, PartialEq, Eq)]
enum Row<'a> {
    Item(&'a [u8]),
    End,
    Fault,
}

impl Copy {
    pub fn of(bytes: Vec<u8>) -> Copy {
        let record = Record::of(&bytes);
        Copy { bytes, record }
    }

    fn row(&self, number: usize) -> Row<'_> {
        let record = &self.record;
        let place = match number.checked_sub(1) {
            None => record.header.as_ref().map(|(_, place)| place),
            Some(frame) => record.frames.get(frame).map(|(_, place)| place),
        };
        match (place, record.fault) {
            (Some(place), _) => Row::Item(&self.bytes[place.clone()]),
            (None, Some(_)) => Row::Fault,
            (None, None) => Row::End,
        }
    }

    /// Where another copy's row parts from its own, which isn't equal.
    fn place(&self, number: usize, other: &Copy) -> String {
        if number == 0 {
            return "header".into();
        }
        let frame = number - 1;
        difference(
            frame,
            &self.record.frames[frame].0,
            &other.record.frames[frame].0,
        )
        .expect("rows with other bytes have a difference")
    }
}

/// The verdict on copies, which differ first where not all have an equal row.
pub fn compare(copies: &[Copy]) -> Ended {
    for number in 0.. {
        let rows: Vec<Row> = copies.iter().map(|copy| copy.row(number)).collect();
        if let Some(copy) = rows.iter().position(|&row| row == Row::Fault) {
            let fault = copies[copy].record.fault.expect("a fault is there");
            return Ended::bad_record(copy, fault, Vec::new());
        }
        if let Some(copy) = rows.iter().position(|&row| row != rows[0]) {
            let place = copies[0].place(number, &copies[copy]);
            return Ended::differs(format!("differ copy {copy} {place}\n").into());
        }
        if rows[0] == Row::End {
            return Ended::done(format!("agree {}\n", copies[0].record.runs().count()).into());
        }
    }
    unreachable!("a record has an end or a fault")
}

/// The row that more than half of all copies hold, among those that are still in step.
fn majority<'a>(rows: &[Option<Row<'a>>]) -> Option<Row<'a>> {
    let holders = |row: Row| rows.iter().filter(|&&other| other == Some(row)).count();
    let is_good = |row: &Row| *row != Row::Fault && 2 * holders(*row) > rows.len();
    rows.iter().flatten().copied().find(is_good)
}

/// The record that more than half of the copies are; or in its place which copies aren't.
pub fn vote(copies: &[Copy], tells_dissent: bool) -> Ended {
    let mut left: Vec<Option<usize>> = vec![None; copies.len()];
    let (mut out, mut cycles) = (Vec::new(), 0);
    for number in 0.. {
        let in_step = copies.iter().zip(&left);
        let rows: Vec<_> = in_step
            .map(|(copy, left)| left.is_none().then(|| copy.row(number)))
            .collect();
        let Some(row) = majority(&rows) else {
            let out = if tells_dissent { Vec::new() } else { out };
            return Ended::new(9, format!("no majority: row {number}"), out);
        };
        for (left, other) in left.iter_mut().zip(rows) {
            if other.is_some_and(|other| other != row) {
                *left = Some(number);
            }
        }
        match row {
            Row::Item(bytes) => {
                out.extend_from_slice(bytes);
                cycles += usize::from(number > 0 && bytes[0] == 4);
            }
            _ => break,
        }
    }
    if !tells_dissent {
        return Ended::done(out);
    }
    let mut text = format!("agree {cycles}\n");
    for (copy, row) in left.iter().enumerate() {
        text += &row.map_or(String::new(), |row| format!("copy {copy} row {row}\n"));
    }
    Ended::done(text.into())
}
