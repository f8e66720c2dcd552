//! The entries that write a report, a listing, a tail, a class's figures or a sheet into a lent
//! buffer: what both sides answer, the lengths of the buffers, and the smallest input found on which
//! the sides differ.

use crate::difference::{schedule_words, tail_words, Difference};
use crate::figures::Numbers;
use crate::lent::{lend, packed, Lent};
use crate::proved;
use crate::reduce;
use crate::schedules::LIMIT;
use crate::states::TAIL;
use second::{Form, Refusal};

/// Buffers up to this length are lent in every length; for sheets, which are few, up to a greater
/// one.
const SHORT: usize = 700;
const SHORT_SHEET: usize = 900;

/// How often the tail is reduced after the steps.
const ROUNDS: u32 = 2;

/// The text of a class file takes fewer characters.
const CLASS_TEXT: usize = 700;

/// The shortest sheet is a header alone.
const HEADER: usize = 3;

/// The n, the vote mask and the number of steps that a sheet is asked for with, in bounds or not.
pub type Sheet = [u32; 3];

/// An entry with what it is handed beside the buffer: a schedule, a tail, a tail and steps, a class
/// file, or a sheet's numbers.
#[derive(Clone, Copy)]
pub enum Entry<'a> {
    Run(&'a [u8]),
    Listing(&'a [u8]),
    Move(&'a [u8]),
    RunFrom(&'a [u8], &'a [u8]),
    ListingFrom(&'a [u8], &'a [u8]),
    Class(&'a [u8]),
    Sheet(Sheet),
}

impl Entry<'_> {
    /// What both sides answer where they agree; else the difference, reduced.
    pub fn compare(self, length: usize) -> Result<Lent, Difference> {
        let (proved, second) = self.both(length);
        if proved != second {
            return Err(self.reduced(length));
        }
        Ok(second)
    }

    /// Compares with buffers of every length up to the needed one and two more; of a choice of
    /// lengths where that is long.
    pub fn compare_lengths(self, numbers: &mut Numbers) -> Result<(), Difference> {
        for length in self.lengths() {
            numbers.note(self.compare(length)?.number());
        }
        Ok(())
    }

    /// A length that is enough for whatever is written, and two more bytes.
    pub fn room(self) -> usize {
        match self {
            // A step takes at least one byte.
            Entry::Run(bytes) | Entry::RunFrom(_, bytes) => bytes.len() + TAIL + 2,
            Entry::Move(_) => TAIL + 2,
            // A step's line takes at most 20 characters, the last two lines at most 400.
            Entry::Listing(bytes) | Entry::ListingFrom(_, bytes) => 20 * bytes.len() + 400,
            Entry::Class(_) => CLASS_TEXT,
            // No sheet is longer than a class file may be.
            Entry::Sheet(_) => LIMIT + 2,
        }
    }

    fn both(self, length: usize) -> (Lent, Lent) {
        let proved = lend(length, |lent| self.proved(lent));
        let second = lend(length, |lent| packed(self.second(lent)));
        (proved, second)
    }

    fn proved(self, lent: &mut [u8]) -> u64 {
        match self {
            Entry::Run(schedule) => proved::run(schedule, lent),
            Entry::Listing(schedule) => proved::list(schedule, lent),
            Entry::Move(tail) => proved::move_tail(tail, lent),
            Entry::RunFrom(tail, steps) => proved::run_from(tail, steps, lent),
            Entry::ListingFrom(tail, steps) => proved::list_from(tail, steps, lent),
            Entry::Class(file) => proved::class(file, lent),
            Entry::Sheet([n, votes, k]) => proved::sheet(n, votes, k, lent),
        }
    }

    fn second(self, lent: &mut [u8]) -> Result<usize, Refusal> {
        match self {
            Entry::Run(schedule) => second::run(schedule, lent),
            Entry::Listing(schedule) => put_text(&second::listing(schedule), lent),
            Entry::Move(tail) => second::move_tail(tail, lent),
            Entry::RunFrom(tail, steps) => second::run_from(tail, steps, lent),
            Entry::ListingFrom(tail, steps) => put_text(&second::listing_from(tail, steps), lent),
            Entry::Class(file) => second::put_class_text(file, lent),
            Entry::Sheet([n, votes, k]) => second::write_sheet(n, votes, k, lent),
        }
    }

    /// The length of the tail, or of a sheet's header, that is written, whether or not the input is
    /// accepted.
    fn least_length(self) -> usize {
        let kind = match self {
            Entry::Run(schedule) | Entry::Listing(schedule) => schedule.first().copied(),
            Entry::Sheet(_) => return HEADER,
            _ => return TAIL,
        };
        Form::under(u32::from(kind.unwrap_or(0))).tail_length()
    }

    /// The length that is needed; a refused input needs none, and its refusal must not depend on the
    /// buffer.
    pub fn needed(self) -> usize {
        match self.second(&mut []) {
            Err(Refusal { number: 6, value }) => value,
            _ => self.least_length() + 1,
        }
    }

    /// Every length up to the needed one and two more, or a choice of them.
    pub fn lengths(self) -> Vec<usize> {
        let needed = self.needed();
        let short = match self {
            Entry::Sheet(_) => SHORT_SHEET,
            _ => SHORT,
        };
        if needed <= short {
            return (0..=needed + 2).collect();
        }
        let least = self.least_length();
        let mut choice = vec![0, 1, 3, 255, 256, needed / 2];
        choice.extend(least - 1..=least + 2);
        choice.extend(needed - 3..=needed + 2);
        choice.push(needed + 40_000);
        choice
    }

    /// No byte, one fewer than needed, just as many, two more, and the length given.
    pub fn few_lengths(self, given: usize) -> [usize; 5] {
        let needed = self.needed();
        [0, needed.saturating_sub(1), needed, needed + 2, given]
    }

    /// A length with which the sides differ: one about the needed length, or the one given.
    fn differing_length(self, given: usize) -> Option<usize> {
        self.few_lengths(given).into_iter().find(|length| {
            let (proved, second) = self.both(*length);
            proved != second
        })
    }

    /// Reduces the steps first, since a short input makes every further try fast, and then the tail.
    /// A sheet has numbers in their place.
    fn reduced(self, length: usize) -> Difference {
        let differs = |tail: &[u8], bytes: &[u8]| {
            let smaller = self.with(tail, bytes);
            smaller.differing_length(length).is_some()
        };
        let (tail, bytes) = self.handed();
        let (mut tail, mut bytes) = (tail.to_vec(), bytes.to_vec());
        for _ in 0..ROUNDS {
            bytes = reduce::schedule(&bytes, |bytes| differs(&tail, bytes));
            tail = reduce::tail(&tail, |tail| differs(tail, &bytes));
        }
        let smallest = self.with(&tail, &bytes).with_lower_numbers(length);
        let length = smallest.differing_length(length).unwrap_or(length);
        let (proved, second) = smallest.both(length);
        Difference {
            input: smallest.words(length),
            proved: proved.words(),
            second: second.words(),
        }
    }

    /// The sheet of the lowest numbers found on which the sides differ; any other entry as it is.
    fn with_lower_numbers(self, length: usize) -> Self {
        let Entry::Sheet(numbers) = self else {
            return self;
        };
        let sheet = |numbers: &[u32]| Entry::Sheet(std::array::from_fn(|place| numbers[place]));
        let lowest = reduce::numbers(&numbers, |numbers| {
            sheet(numbers).differing_length(length).is_some()
        });
        sheet(&lowest)
    }

    /// The tail, and the schedule, steps or file; where there is none, no bytes.
    fn handed(&self) -> (&[u8], &[u8]) {
        match *self {
            Entry::Run(bytes) | Entry::Listing(bytes) | Entry::Class(bytes) => (&[], bytes),
            Entry::Move(tail) => (tail, &[]),
            Entry::RunFrom(tail, bytes) | Entry::ListingFrom(tail, bytes) => (tail, bytes),
            Entry::Sheet(_) => (&[], &[]),
        }
    }

    /// The same entry with other bytes.
    fn with<'b>(self, tail: &'b [u8], bytes: &'b [u8]) -> Entry<'b> {
        match self {
            Entry::Run(_) => Entry::Run(bytes),
            Entry::Listing(_) => Entry::Listing(bytes),
            Entry::Move(_) => Entry::Move(tail),
            Entry::RunFrom(..) => Entry::RunFrom(tail, bytes),
            Entry::ListingFrom(..) => Entry::ListingFrom(tail, bytes),
            Entry::Class(_) => Entry::Class(bytes),
            Entry::Sheet(numbers) => Entry::Sheet(numbers),
        }
    }

    pub fn words(self, length: usize) -> String {
        let (name, has_tail, bytes_name) = match self {
            Entry::Run(_) => ("run", false, Some("schedule")),
            Entry::Listing(_) => ("listing", false, Some("schedule")),
            Entry::Move(_) => ("move", true, None),
            Entry::RunFrom(..) => ("run from a tail", true, Some("rest")),
            Entry::ListingFrom(..) => ("listing from a tail", true, Some("rest")),
            Entry::Class(_) => ("class", false, Some("file")),
            Entry::Sheet(_) => ("sheet", false, None),
        };
        let (tail, bytes) = self.handed();
        let mut text = format!("{name} with a buffer of {length} bytes");
        if has_tail {
            text += &format!("\ntail of {}", given_tail_words(tail));
        }
        if let Some(bytes_name) = bytes_name {
            text += &format!("\n{bytes_name} of {}", schedule_words(bytes));
        }
        if let Entry::Sheet(numbers) = self {
            text += &format!("\n{}", sheet_words(numbers));
        }
        text
    }
}

pub fn sheet_words([n, votes, k]: Sheet) -> String {
    format!("n {n}, votes {votes}, k {k}")
}

/// A tail with its length, which need not be that of a form.
fn given_tail_words(tail: &[u8]) -> String {
    let form = match tail.len() {
        59 => Form::Narrow,
        _ => Form::Wide,
    };
    format!("{} bytes: {}", tail.len(), tail_words(form, tail))
}

/// The second program's listing, put into a lent buffer.
fn put_text(listing: &str, text: &mut [u8]) -> Result<usize, Refusal> {
    let value = listing.len();
    let lent = text.get_mut(..value);
    let lent = lent.ok_or(Refusal { number: 6, value })?;
    lent.copy_from_slice(listing.as_bytes());
    Ok(value)
}
