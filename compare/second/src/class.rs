//! The figures of a class file: many schedules in one file, each with its header.

use crate::marker::LENGTH_REFUSED;
use crate::mask::MOST_PARTICIPANTS;
use crate::refusal::{Refusal, BUFFER_TOO_SHORT};
use crate::release::take_step;
use crate::report;
use crate::schedule::{
    is_header, read_header_or_step, read_record, Header, Record, CALL_ANSWERED, CALL_ANSWER_LOST,
    MOST_BYTES,
};
use crate::tail::Tail;

/// The coordinator and every participant that a header may give.
const PARTIES: usize = MOST_PARTICIPANTS as usize + 1;

/// The exact totals of a class file, which has at least one schedule.
#[derive(Clone, Copy, PartialEq, Eq, Debug)]
pub struct ClassFigures {
    pub schedules: u32,
    /// The schedules in which some step reports a commit; each counts once.
    pub with_commit: u32,
    pub with_abort: u32,
    pub with_neither: u32,
    /// The due store calls of all parties in all schedules: the sum of the column.
    pub calls: u32,
    /// The due store calls of each party 0 to 32 in all schedules, those of party p at p; 0 where
    /// no schedule has that party.
    pub column: [u32; PARTIES],
    /// The largest n of all headers. No party beyond it has a line in the text.
    pub largest_n: u32,
    /// The largest number of calls in one schedule.
    pub largest: u32,
    /// The first schedule that has that number, counted from 1.
    pub largest_in: u32,
}

/// All numbers 0.
impl Default for ClassFigures {
    fn default() -> ClassFigures {
        ClassFigures {
            schedules: 0,
            with_commit: 0,
            with_abort: 0,
            with_neither: 0,
            calls: 0,
            column: [0; PARTIES],
            largest_n: 0,
            largest: 0,
            largest_in: 0,
        }
    }
}

impl ClassFigures {
    /// The mean number of calls: its whole part, and the remainder over the number of schedules.
    pub fn mean(&self) -> (u32, u32) {
        (self.calls / self.schedules, self.calls % self.schedules)
    }

    /// Adds a schedule at its end. Its calls are in the column already, from when its steps were
    /// taken.
    fn add(&mut self, schedule: &Schedule) {
        self.schedules += 1;
        self.with_commit += u32::from(schedule.has_commit);
        self.with_abort += u32::from(schedule.has_abort);
        self.with_neither += u32::from(!schedule.has_commit && !schedule.has_abort);
        self.largest_n = self.largest_n.max(schedule.tail.n);
        // The first schedule has the largest number so far even where that is 0.
        if self.schedules == 1 || schedule.calls > self.largest {
            self.largest = schedule.calls;
            self.largest_in = self.schedules;
        }
    }

    /// A line for each figure, and after the total one for each party, ended by a newline.
    fn lines(&self) -> String {
        let ClassFigures {
            schedules,
            with_commit,
            with_abort,
            with_neither,
            calls,
            largest,
            largest_in,
            ..
        } = self;
        let parties = self.party_lines();
        let (whole, remainder) = self.mean();
        format!(
            "schedules {schedules}\n\
             commit {with_commit}\n\
             abort {with_abort}\n\
             neither {with_neither}\n\
             calls {calls}\n\
             {parties}\
             mean {whole} {remainder}/{schedules}\n\
             largest {largest} in {largest_in}\n"
        )
    }

    /// A line for each party from 0 to the largest n.
    fn party_lines(&self) -> String {
        let mut lines = String::new();
        for (party, calls) in self.column[..=self.largest_n as usize].iter().enumerate() {
            lines += &format!("party {party} {calls}\n");
        }
        lines
    }
}

/// The schedule that is being read: its release, and what its steps have come to so far.
struct Schedule {
    tail: Tail,
    has_commit: bool,
    has_abort: bool,
    calls: u32,
}

impl Schedule {
    fn fresh(header: Header) -> Schedule {
        Schedule {
            tail: Tail::fresh(header),
            has_commit: false,
            has_abort: false,
            calls: 0,
        }
    }

    /// Takes a step in range, and counts its call, if it makes one, here and for its party. One
    /// that is not due is no call made and reports no decision.
    fn take(&mut self, step: Record, column: &mut [u32; PARTIES]) {
        let Some(byte) = take_step(&mut self.tail, step) else {
            return;
        };
        if matches!(step.kind, CALL_ANSWERED | CALL_ANSWER_LOST) {
            self.calls += 1;
            column[step.first as usize] += 1;
        }
        match report::outcome(byte) {
            report::COMMIT => self.has_commit = true,
            report::ABORT => self.has_abort = true,
            _ => (),
        }
    }
}

/// The figures of a class file; or a refusal, of its length or of the first wrong record, at that
/// record's place in the file. A refused file gives no figures, so that each step is taken when it
/// is read.
pub fn class_figures(file: &[u8]) -> Result<ClassFigures, Refusal> {
    if file.is_empty() || file.len() > MOST_BYTES {
        return Err(LENGTH_REFUSED);
    }
    let (first, mut place) = read_record(file, None)?;
    let mut schedule = Schedule::fresh(first.header());
    let mut figures = ClassFigures::default();
    while place < file.len() {
        let read = read_header_or_step(&file[place..], schedule.tail.n);
        let (record, length) = read.map_err(|number| Refusal {
            number,
            value: place,
        })?;
        if is_header(record.kind) {
            figures.add(&schedule);
            schedule = Schedule::fresh(record.header());
        } else {
            schedule.take(record, &mut figures.column);
        }
        place += length;
    }
    figures.add(&schedule);
    figures.calls = figures.column.iter().sum();
    Ok(figures)
}

/// The lines of a class file's figures, or the line of its refusal, every line ended by a newline.
pub fn class_text(file: &[u8]) -> String {
    match class_figures(file) {
        Err(refusal) => refusal.line(),
        Ok(figures) => figures.lines(),
    }
}

/// Writes the lines of `class_text` into the lent text and returns their length; or the refusal of
/// a text too short, which is untouched.
pub fn put_class_text(file: &[u8], text: &mut [u8]) -> Result<usize, Refusal> {
    let lines = class_text(file);
    let Some(lent) = text.get_mut(..lines.len()) else {
        return Err(Refusal {
            number: BUFFER_TOO_SHORT,
            value: lines.len(),
        });
    };
    lent.copy_from_slice(lines.as_bytes());
    Ok(lines.len())
}
