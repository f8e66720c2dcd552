//! Compares the figures of class files, and counts what the files amount to.

use crate::class_files::{header_places, schedules_at};
use crate::difference::{schedule_words, Difference};
use crate::figures::Numbers;
use crate::lending::Entry;
use crate::printed;
use crate::replay::Programs;
use crate::states::TAIL;
use second::{Form, Tail};
use std::fmt;

/// How many bytes a lent text has at most beyond the needed ones.
const MORE: usize = 5;

#[derive(Clone, Copy, Default)]
pub struct ClassFigures {
    /// The refusals that the texts of the files say.
    files: Numbers,
    /// What the entry itself answers with texts of every length.
    texts: Numbers,
    /// Files that the program was run on.
    printed: u64,
    /// The rest is of files that have figures: first their greatest length and numbers.
    longest: u64,
    most_schedules: u32,
    most_calls: u32,
    schedules: u64,
    with_commit: u64,
    with_abort: u64,
    with_neither: u64,
    calls: u64,
    /// Files with headers of both kinds, and with both decisions.
    of_both_forms: u64,
    of_both_decisions: u64,
    /// Files in which several schedules have the largest number of calls, more than 0.
    tied: u64,
    without_calls: u64,
    /// Files with calls of the coordinator, and of the last party that there can be.
    of_party_0: u64,
    of_party_32: u64,
    /// Files in which a later schedule has more participants than the first.
    grown: u64,
}

impl ClassFigures {
    /// Compares with a text that is long enough, and answers the length written.
    pub fn agreed(&mut self, file: &[u8]) -> Result<usize, Difference> {
        let entry = Entry::Class(file);
        let lent = entry.compare(entry.room())?;
        match second::class_figures(file) {
            Err(refusal) => self.files.note(refusal.number),
            Ok(figures) => self.note_accepted(file, &figures),
        }
        Ok(lent.written().len())
    }

    /// Compares with texts of every length up to the needed one and five more.
    pub fn agreed_lengths(&mut self, file: &[u8]) -> Result<(), Difference> {
        let needed = self.agreed(file)?;
        for length in 0..=needed + MORE {
            let lent = Entry::Class(file).compare(length)?;
            self.texts.note(lent.number());
        }
        Ok(())
    }

    /// Compares with what the program `class` prints.
    pub fn agreed_printed(&mut self, programs: &Programs, file: &[u8]) -> Result<(), Difference> {
        self.printed += 1;
        let words = |file: &[u8]| format!("class, file of {}", schedule_words(file));
        printed::compare(file, |file| programs.class(file), second::class_text, words)
    }

    fn note_accepted(&mut self, file: &[u8], figures: &second::ClassFigures) {
        self.files.note(0);
        self.longest = self.longest.max(file.len() as u64);
        self.most_schedules = self.most_schedules.max(figures.schedules);
        self.most_calls = self.most_calls.max(figures.largest);
        self.schedules += u64::from(figures.schedules);
        self.with_commit += u64::from(figures.with_commit);
        self.with_abort += u64::from(figures.with_abort);
        self.with_neither += u64::from(figures.with_neither);
        self.calls += u64::from(figures.calls);
        let places = header_places(file);
        let has = |kind| places.iter().any(|place| file[*place] == kind);
        self.of_both_forms += u64::from(has(1) && has(11));
        let both_decisions = figures.with_commit > 0 && figures.with_abort > 0;
        self.of_both_decisions += u64::from(both_decisions);
        let calls = calls_of_each(file, &places);
        let tied = calls.iter().filter(|calls| **calls == figures.largest);
        self.tied += u64::from(figures.largest > 0 && tied.count() > 1);
        self.without_calls += u64::from(figures.calls == 0);
        self.of_party_0 += u64::from(figures.column[0] > 0);
        self.of_party_32 += u64::from(figures.column[32] > 0);
        self.grown += u64::from(figures.largest_n > u32::from(file[1]));
    }

    fn add(&mut self, other: &ClassFigures) {
        self.files.add(&other.files);
        self.texts.add(&other.texts);
        self.printed += other.printed;
        self.longest = self.longest.max(other.longest);
        self.most_schedules = self.most_schedules.max(other.most_schedules);
        self.most_calls = self.most_calls.max(other.most_calls);
        self.schedules += other.schedules;
        self.with_commit += other.with_commit;
        self.with_abort += other.with_abort;
        self.with_neither += other.with_neither;
        self.calls += other.calls;
        self.of_both_forms += other.of_both_forms;
        self.of_both_decisions += other.of_both_decisions;
        self.tied += other.tied;
        self.without_calls += other.without_calls;
        self.of_party_0 += other.of_party_0;
        self.of_party_32 += other.of_party_32;
        self.grown += other.grown;
    }

    pub fn sum(parts: &[ClassFigures]) -> ClassFigures {
        let mut whole = ClassFigures::default();
        parts.iter().for_each(|part| whole.add(part));
        whole
    }

    pub fn calls(&self) -> u64 {
        self.files.total() + self.texts.total() + self.printed
    }
}

/// The number of calls that the report of each schedule alone tells. The places are those of the
/// headers of an accepted file.
fn calls_of_each(file: &[u8], places: &[usize]) -> Vec<u32> {
    // A step takes at least one byte.
    let mut report = vec![0; file.len() + TAIL];
    let mut calls = |schedule: &[u8]| {
        let length = second::run(schedule, &mut report).expect("the file is accepted");
        let form = Form::under(u32::from(schedule[0]));
        let tail = &report[length - form.tail_length()..length];
        let counts = Tail::from_bytes(form, tail).calls;
        counts.into_iter().map(u32::from).sum()
    };
    let schedules = schedules_at(file, places);
    schedules.into_iter().map(&mut calls).collect()
}

impl fmt::Display for ClassFigures {
    fn fmt(&self, to: &mut fmt::Formatter) -> fmt::Result {
        write!(
            to,
            "{} files, of these {}; up to {} bytes, {} schedules and {} calls of a schedule; \
             {} schedules: {} with a commit, {} with an abort, {} with neither, {} calls; \
             {} files with headers of both kinds, {} with a commit and an abort, \
             {} with a tie for the largest, {} without calls, {} with calls of party 0, \
             {} with calls of party 32, {} with a larger n than the first schedule's",
            self.files.total(),
            self.files,
            self.longest,
            self.most_schedules,
            self.most_calls,
            self.schedules,
            self.with_commit,
            self.with_abort,
            self.with_neither,
            self.calls,
            self.of_both_forms,
            self.of_both_decisions,
            self.tied,
            self.without_calls,
            self.of_party_0,
            self.of_party_32,
            self.grown
        )?;
        if self.texts.total() > 0 {
            write!(to, "; {} lent texts: {}", self.texts.total(), self.texts)?;
        }
        if self.printed > 0 {
            write!(to, "; program class on {}", self.printed)?;
        }
        Ok(())
    }
}
