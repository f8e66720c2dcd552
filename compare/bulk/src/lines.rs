//! Compares the lines that `replay` prints for a batch of schedules with those that follow from the
//! second program's `run`.

use crate::difference::{hexadecimal, schedule_words, Difference};
use crate::figures::ScheduleFigures;
use crate::reduce;
use crate::replay::{frames, Programs};
use second::Refusal;

/// The greatest report: a step for each byte after a wide header, and the tail.
const REPORT: usize = 33_082;

/// How many schedules are shown where it takes several to make a difference.
const SHOWN: usize = 5;

/// The figures of a batch on which both sides agree, or the first difference, reduced.
pub fn compare(programs: &Programs, batch: &[Vec<u8>]) -> Result<ScheduleFigures, Difference> {
    let reports = reports(batch);
    let expected = lines(&reports);
    let printed = programs.replay(&frames(batch));
    if !printed.agrees(&expected) {
        return Err(reduced(programs, batch, &printed.text, &expected));
    }
    let mut figures = ScheduleFigures::default();
    for (schedule, report) in batch.iter().zip(&reports) {
        figures.note(schedule, report);
    }
    Ok(figures)
}

/// `replay` says so when its input ends inside a frame.
pub fn compare_incomplete(programs: &Programs, input: &[u8]) -> Result<(), Difference> {
    let printed = programs.replay(input);
    if printed.text == b"incomplete frame\n" {
        return Ok(());
    }
    Err(Difference {
        input: format!(
            "replay, input that ends inside a frame: {}",
            hexadecimal(input)
        ),
        proved: text_words(&printed.text),
        second: "incomplete frame".to_string(),
    })
}

/// What the second program's `run` gives for each schedule.
fn reports(batch: &[Vec<u8>]) -> Vec<Result<Vec<u8>, Refusal>> {
    let mut report = vec![0; REPORT];
    let mut run = |schedule: &Vec<u8>| {
        let length = second::run(schedule, &mut report)?;
        Ok(report[..length].to_vec())
    };
    batch.iter().map(&mut run).collect()
}

/// The lines that `replay` is to print for these reports and refusals.
fn lines(reports: &[Result<Vec<u8>, Refusal>]) -> Vec<u8> {
    let mut text = Vec::new();
    for report in reports {
        match report {
            Ok(report) => push_hexadecimal(&mut text, report),
            Err(refusal) => {
                let line = format!("refused {} at {}", refusal.number, refusal.value);
                text.extend_from_slice(line.as_bytes());
            }
        }
        text.push(b'\n');
    }
    text
}

fn push_hexadecimal(text: &mut Vec<u8>, bytes: &[u8]) {
    const DIGITS: &[u8; 16] = b"0123456789abcdef";
    for byte in bytes {
        text.push(DIGITS[usize::from(byte >> 4)]);
        text.push(DIGITS[usize::from(byte & 15)]);
    }
}

fn differs(programs: &Programs, batch: &[Vec<u8>]) -> bool {
    let printed = programs.replay(&frames(batch));
    !printed.agrees(&lines(&reports(batch)))
}

/// Mostly a single schedule is enough; where it takes several frames to make a difference, the
/// fewest found are shown.
fn reduced(programs: &Programs, batch: &[Vec<u8>], text: &[u8], expected: &[u8]) -> Difference {
    let alone = batch[first_differing_line(text, expected, batch.len() - 1)].clone();
    if !differs(programs, std::slice::from_ref(&alone)) {
        let fewest = reduce::items(batch.to_vec(), |batch| differs(programs, batch));
        return difference(programs, &fewest);
    }
    let smallest = reduce::schedule(&alone, |bytes| differs(programs, &[bytes.to_vec()]));
    difference(programs, &[smallest])
}

/// The number of the first line that is not the expected one, `last` at most.
fn first_differing_line(text: &[u8], expected: &[u8], last: usize) -> usize {
    let lines = text.split_inclusive(|byte| *byte == b'\n');
    let expected = expected.split_inclusive(|byte| *byte == b'\n');
    let same = lines.zip(expected).take_while(|(a, b)| a == b).count();
    same.min(last)
}

/// Says how `replay` ended and how many lines it printed, since it may have ended early.
fn difference(programs: &Programs, batch: &[Vec<u8>]) -> Difference {
    let printed = programs.replay(&frames(batch));
    let shown = batch.iter().take(SHOWN).map(|bytes| schedule_words(bytes));
    let mut input: String = shown.collect();
    if batch.len() > SHOWN {
        input += &format!("and {} further schedules\n", batch.len() - SHOWN);
    }
    let count = printed.text.split_inclusive(|byte| *byte == b'\n').count();
    let (schedules, status) = (batch.len(), printed.status);
    input += &format!("replay: lines printed {count}, schedules {schedules}, {status}");
    Difference {
        input,
        proved: text_words(&printed.text),
        second: text_words(&lines(&reports(batch))),
    }
}

fn text_words(text: &[u8]) -> String {
    String::from_utf8_lossy(text).into_owned()
}
