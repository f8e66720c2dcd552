//! Compares the entries that take a tail, and the runs before them, and counts what they answer.

use crate::difference::Difference;
use crate::figures::{Numbers, ReportBytes};
use crate::lending::Entry;
use crate::lent::Lent;
use crate::states::TAIL;
use second::{Form, Tail};
use std::fmt;

#[derive(Clone, Copy, Default)]
pub struct TailFigures {
    run: Numbers,
    moves: Numbers,
    run_from: Numbers,
    listing_from: Numbers,
    /// Of the runs from a tail alone.
    report_bytes: ReportBytes,
    most_calls: u16,
}

impl TailFigures {
    /// What both sides answer with a buffer that is long enough.
    pub fn agreed(&mut self, entry: Entry) -> Result<Lent, Difference> {
        self.agreed_with(entry, entry.room())
    }

    /// What both sides answer with a buffer of this length.
    pub fn agreed_with(&mut self, entry: Entry, length: usize) -> Result<Lent, Difference> {
        let lent = entry.compare(length)?;
        self.numbers(entry).note(lent.number());
        if let (Entry::RunFrom(..), 0) = (entry, lent.number()) {
            self.note_report(lent.written());
        }
        Ok(lent)
    }

    /// Compares with buffers of every length, as far as the needed one is short.
    pub fn agreed_lengths(&mut self, entry: Entry) -> Result<(), Difference> {
        entry.compare_lengths(self.numbers(entry))
    }

    fn numbers(&mut self, entry: Entry) -> &mut Numbers {
        match entry {
            // Class files and sheets come with no tail, and have figures of their own.
            Entry::Run(_) | Entry::Listing(_) | Entry::Class(_) | Entry::Sheet(_) => &mut self.run,
            Entry::Move(_) => &mut self.moves,
            Entry::RunFrom(..) => &mut self.run_from,
            Entry::ListingFrom(..) => &mut self.listing_from,
        }
    }

    fn note_report(&mut self, report: &[u8]) {
        let (bytes, tail) = report.split_at(report.len() - TAIL);
        bytes.iter().for_each(|byte| self.report_bytes.note(*byte));
        let calls = Tail::from_bytes(Form::Wide, tail).calls;
        self.most_calls = calls.into_iter().fold(self.most_calls, u16::max);
    }

    pub fn add(&mut self, other: &TailFigures) {
        self.run.add(&other.run);
        self.moves.add(&other.moves);
        self.run_from.add(&other.run_from);
        self.listing_from.add(&other.listing_from);
        self.report_bytes.add(&other.report_bytes);
        self.most_calls = self.most_calls.max(other.most_calls);
    }

    pub fn sum(parts: &[TailFigures]) -> TailFigures {
        let mut whole = TailFigures::default();
        parts.iter().for_each(|part| whole.add(part));
        whole
    }

    pub fn calls(&self) -> u64 {
        let all = [&self.run, &self.moves, &self.run_from, &self.listing_from];
        all.iter().map(|numbers| numbers.total()).sum()
    }
}

impl fmt::Display for TailFigures {
    fn fmt(&self, to: &mut fmt::Formatter) -> fmt::Result {
        let named = [
            ("runs", &self.run),
            ("moves", &self.moves),
            ("runs from a tail", &self.run_from),
            ("listings from a tail", &self.listing_from),
        ];
        let called = named.iter().filter(|(_, numbers)| numbers.total() > 0);
        let mut words: Vec<String> = called
            .map(|(name, numbers)| format!("{} {name}: {numbers}", numbers.total()))
            .collect();
        if self.report_bytes.total() > 0 {
            words.push(format!("up to {} calls of a party", self.most_calls));
            words.push(format!("steps from a tail: {}", self.report_bytes));
        }
        write!(to, "{}", words.join("; "))
    }
}
