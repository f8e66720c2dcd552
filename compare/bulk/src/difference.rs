//! A difference between the two sides, in words: the input and both answers.

use crate::schedules::records;
use second::Form;
use std::fmt;

/// Answers up to this many characters are shown in full.
const SHOWN: usize = 400;
/// Of longer ones, this many characters before and after the first differing place.
const CONTEXT: usize = 60;
/// Schedules up to this many bytes are also shown in words.
const TOLD: usize = 150;

/// Equal bytes in a row up to this many are written one by one.
const MANY: usize = 100;
/// So are equal groups of a tail's bytes.
const FEW: usize = 2;

pub struct Difference {
    pub input: String,
    pub proved: String,
    pub second: String,
}

impl fmt::Display for Difference {
    fn fmt(&self, to: &mut fmt::Formatter) -> fmt::Result {
        let place = first_differing(&self.proved, &self.second);
        writeln!(to, "smallest input found:\n{}", self.input.trim_end())?;
        writeln!(to, "proved program:\n{}", part(&self.proved, place))?;
        write!(to, "second program:\n{}", part(&self.second, place))
    }
}

fn first_differing(one: &str, other: &str) -> usize {
    let same = |(a, b): &(u8, u8)| a == b;
    one.bytes().zip(other.bytes()).take_while(same).count()
}

fn part(answer: &str, place: usize) -> String {
    if answer.len() <= SHOWN {
        return answer.trim_end().to_string();
    }
    let from = place.saturating_sub(CONTEXT);
    let to = (place + CONTEXT).min(answer.len());
    let shown = String::from_utf8_lossy(&answer.as_bytes()[from..to]);
    format!(
        "{} characters, first difference at character {place}; from {from} to {to}: {}",
        answer.len(),
        shown.trim_end()
    )
}

/// The bytes in hexadecimal; one that stands there very often in a row is written once, with its
/// number.
pub fn hexadecimal(bytes: &[u8]) -> String {
    let runs = bytes.chunk_by(|one, next| one == next);
    let words = runs.map(|run| match run.len() {
        0..=MANY => vec![format!("{:02X}", run[0]); run.len()].join(" "),
        many => format!("({many} times {:02X})", run[0]),
    });
    words.collect::<Vec<String>>().join(" ")
}

/// A schedule in hexadecimal and, unless it is long, its records one a line.
pub fn schedule_words(schedule: &[u8]) -> String {
    let mut text = format!("{} bytes: {}\n", schedule.len(), hexadecimal(schedule));
    if schedule.len() <= TOLD {
        text.extend(records(schedule).map(|record| format!("  {}\n", record_words(record))));
    }
    text
}

/// A tail of this form in hexadecimal, in groups: n and votes, the coordinator, the messages, each
/// participant, the counts of calls, and what lies beyond. One too short ends earlier.
pub fn tail_words(form: Form, bytes: &[u8]) -> String {
    let width = form.mask_bytes();
    let participants = form.most_participants() as usize;
    let mut lengths = vec![1 + width, 1 + width, 5 * width];
    lengths.resize(3 + participants, 3 + width);
    lengths.push(2 * (participants + 1));
    let mut rest = bytes;
    let mut groups = Vec::new();
    for length in lengths {
        let (group, after) = rest.split_at(length.min(rest.len()));
        groups.push(hexadecimal(group));
        rest = after;
    }
    groups.push(hexadecimal(rest));
    groups.retain(|group| !group.is_empty());
    let runs = groups.chunk_by(|one, next| one == next);
    let words = runs.map(|run| match run.len() {
        0..=FEW => run.join(" | "),
        many => format!("({many} times {})", run[0]),
    });
    words.collect::<Vec<String>>().join(" | ")
}

fn record_words(record: &[u8]) -> String {
    match *record {
        [1, n, votes] => format!("header n {n} votes {votes:02X}"),
        [2] => "start".to_string(),
        [3, t, p] => format!("deliver type {t} participant {p}"),
        [4, t, p] => format!("deliver a copy, type {t} participant {p}"),
        [5, t, p] => format!("lose type {t} participant {p}"),
        [6, party, log] => format!("call of party {party} on log {log}, answered"),
        [7, party, log] => format!("call of party {party} on log {log}, answer lost"),
        [8, party] => format!("timeout of party {party}"),
        [9, party] => format!("crash of party {party}"),
        [10, party] => format!("restart of party {party}"),
        [11, n, a, b, c, d] => {
            let votes = u32::from_le_bytes([a, b, c, d]);
            format!("wide header n {n} votes {votes:08X}")
        }
        _ => format!("no record: {}", hexadecimal(record)),
    }
}

/// A packed answer: the refusal's number in the upper 32 bits and the value in the lower.
pub fn packed_words(answer: u64) -> String {
    let (number, value) = (answer >> 32, answer & 0xFFFF_FFFF);
    match number {
        0 => format!("no refusal, value {value} (hexadecimal {value:08X})"),
        _ => format!("refused {number}, value {value}"),
    }
}
