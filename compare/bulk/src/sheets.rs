//! Groups 41 to 43, sheets of every short exercise: those in and about the bounds, lent buffers of
//! every length, and random ones.

use crate::difference::Difference;
use crate::figures::Numbers;
use crate::jobs;
use crate::lending::{Entry, Sheet};
use crate::random::Random;
use std::fmt;

/// How many random sheets a job has.
const BATCH: usize = 50;

/// The greatest n and the greatest number of steps that a sheet may have.
const MOST_PARTICIPANTS: u32 = 2;
const MOST_STEPS: u32 = 3;

/// Numbers far out of bounds. Of some, the lowest byte or the lower half alone would lie within.
const FAR: [u32; 10] = [
    255,
    256,
    257,
    258,
    259,
    65_537,
    1 << 31,
    (1 << 31) + 1,
    u32::MAX - 1,
    u32::MAX,
];

#[derive(Clone, Copy, Default)]
pub struct SheetFigures {
    sheets: u64,
    /// What the entry answers with each buffer.
    numbers: Numbers,
    /// The most bytes written.
    longest: usize,
}

impl SheetFigures {
    /// Compares a sheet with buffers of these lengths.
    fn agreed(&mut self, sheet: Sheet, lengths: &[usize]) -> Result<(), Difference> {
        self.sheets += 1;
        for length in lengths {
            let lent = Entry::Sheet(sheet).compare(*length)?;
            self.numbers.note(lent.number());
            self.longest = self.longest.max(lent.written().len());
        }
        Ok(())
    }

    fn sum(parts: &[SheetFigures]) -> SheetFigures {
        let mut whole = SheetFigures::default();
        for part in parts {
            whole.sheets += part.sheets;
            whole.numbers.add(&part.numbers);
            whole.longest = whole.longest.max(part.longest);
        }
        whole
    }

    pub fn calls(&self) -> u64 {
        self.numbers.total()
    }
}

impl fmt::Display for SheetFigures {
    fn fmt(&self, to: &mut fmt::Formatter) -> fmt::Result {
        write!(
            to,
            "{} sheets with {} buffers: {}; up to {} bytes",
            self.sheets,
            self.numbers.total(),
            self.numbers,
            self.longest
        )
    }
}

/// Every sheet that is in bounds.
pub fn in_bounds() -> Vec<Sheet> {
    let mut sheets = Vec::new();
    for n in 1..=MOST_PARTICIPANTS {
        for votes in 0..1 << n {
            sheets.extend((0..=MOST_STEPS).map(|k| [n, votes, k]));
        }
    }
    sheets
}

/// The sheet that these bytes ask for: a byte for each number, and 0 where there is none.
pub fn asked_by(input: &[u8]) -> Sheet {
    std::array::from_fn(|place| input.get(place).map_or(0, |byte| u32::from(*byte)))
}

/// Group 41: every sheet in bounds and very many about them, each with an empty buffer, with some
/// about the needed length, and with a roomy one.
pub fn about_the_bounds() -> Result<SheetFigures, Difference> {
    let every_n: Vec<u32> = (0..=4).chain([8, 9, 32, 33]).chain(FAR).collect();
    let done = jobs::run_all(every_n.len(), |job| {
        let mut figures = SheetFigures::default();
        for votes in (0..=8).chain([15]).chain(FAR) {
            for k in (0..=5).chain(FAR) {
                let sheet = [every_n[job], votes, k];
                let entry = Entry::Sheet(sheet);
                figures.agreed(sheet, &entry.few_lengths(entry.room()))?;
            }
        }
        Ok(figures)
    })?;
    Ok(SheetFigures::sum(&done))
}

/// Group 42: every sheet in bounds with buffers of every length, the longest with a choice of them.
pub fn buffers() -> Result<SheetFigures, Difference> {
    let sheets = in_bounds();
    let done = jobs::run_all(sheets.len(), |job| {
        let mut figures = SheetFigures::default();
        figures.agreed(sheets[job], &Entry::Sheet(sheets[job]).lengths())?;
        Ok(figures)
    })?;
    Ok(SheetFigures::sum(&done))
}

/// Group 43: at least `cases` random sheets.
pub fn random(seed: u64, cases: usize) -> Result<SheetFigures, Difference> {
    let done = jobs::run_all(cases.div_ceil(BATCH), |job| {
        let mut random = Random::new(seed, 43, job);
        let mut figures = SheetFigures::default();
        for _ in 0..BATCH {
            let sheet = any_sheet(&mut random);
            let length = any_length(&mut random, Entry::Sheet(sheet).needed());
            figures.agreed(sheet, &[length])?;
        }
        Ok(figures)
    })?;
    Ok(SheetFigures::sum(&done))
}

/// Mostly a sheet in bounds or next to them, or one with a single number that is mostly far out.
fn any_sheet(random: &mut Random) -> Sheet {
    let n = random.between(1, MOST_PARTICIPANTS);
    let within = [n, random.below(1 << n), random.between(0, MOST_STEPS)];
    match random.below(8) {
        0 => [0; 3].map(|_| random.wide_number()),
        1 => [0; 3].map(|_| random.between(0, u32::MAX)),
        2 | 3 => {
            let mut sheet = within;
            sheet[random.place(3)] = random.wide_number();
            sheet
        }
        4 | 5 => [random.below(4), random.below(5), random.below(5)],
        _ => within,
    }
}

/// A length that is too short, one about the needed length, or a greater one.
fn any_length(random: &mut Random, needed: usize) -> usize {
    match random.below(4) {
        0 => random.place(needed),
        1 => needed - 1 + random.place(3),
        _ => needed + random.place(5_000),
    }
}
