//! Group 4, the run and the listing with lent buffers of every length, and the program `mark`; group
//! 14 is the same for wide schedules; group 25 is the move, and the run and the listing from a tail.

use crate::difference::{schedule_words, Difference};
use crate::figures::Numbers;
use crate::jobs;
use crate::lending::Entry;
use crate::printed;
use crate::random::Random;
use crate::replay::Programs;
use crate::rests::{any_rest, any_tail};
use crate::schedules::{
    closed_at_the_end, group, random_schedule, rest_of_length, schedule_of_length, LIMIT,
};
use crate::states::reached;
use crate::tail_figures::TailFigures;
use crate::whole::any_damaged;
use second::{Form, Tail};
use std::fmt;

/// How many schedules a job has, and for how many of them `mark` is run.
const BATCH: usize = 100;
const MARKED: usize = 6;

/// How many tails a job has.
const TAILS: usize = 25;

#[derive(Clone, Copy, Default)]
pub struct BufferFigures {
    schedules: u64,
    run: Numbers,
    listing: Numbers,
    marked: u64,
}

impl BufferFigures {
    pub fn calls(&self) -> u64 {
        self.run.total() + self.listing.total() + self.marked
    }
}

impl fmt::Display for BufferFigures {
    fn fmt(&self, to: &mut fmt::Formatter) -> fmt::Result {
        write!(
            to,
            "{} schedules; run with {} buffers: {}; listing with {} buffers: {}; mark on {}",
            self.schedules,
            self.run.total(),
            self.run,
            self.listing.total(),
            self.listing,
            self.marked
        )
    }
}

/// Compares run and listing on at least `cases` schedules of this form.
pub fn compare(
    programs: &Programs,
    seed: u64,
    cases: usize,
    form: Form,
) -> Result<BufferFigures, Difference> {
    let done = jobs::run_all(cases.div_ceil(BATCH), |job| {
        let mut random = Random::new(seed, group(4, form), job);
        let mut figures = BufferFigures::default();
        for at in 0..BATCH {
            let schedule = any_schedule(&mut random, form, at);
            figures.schedules += 1;
            Entry::Run(&schedule).compare_lengths(&mut figures.run)?;
            Entry::Listing(&schedule).compare_lengths(&mut figures.listing)?;
            if at < MARKED {
                compare_mark(programs, &schedule)?;
                figures.marked += 1;
            }
        }
        Ok(figures)
    })?;
    let mut whole = BufferFigures::default();
    for part in &done {
        whole.schedules += part.schedules;
        whole.run.add(&part.run);
        whole.listing.add(&part.listing);
        whole.marked += part.marked;
    }
    Ok(whole)
}

fn any_schedule(random: &mut Random, form: Form, at: usize) -> Vec<u8> {
    let steps = random.place(30);
    match at % 10 {
        0 if at == 0 => {
            let length = LIMIT - 2 + random.place(4);
            schedule_of_length(random, form, length)
        }
        1 => {
            let length = random.between(60, 600) as usize;
            schedule_of_length(random, form, length)
        }
        // Random steps close a log long before its step's number has five digits.
        5 if at == 5 => {
            let n = random.between(1, form.most_participants());
            closed_at_the_end(form, n, LIMIT - random.place(3))
        }
        2..=4 => any_damaged(random, form),
        _ => random_schedule(random, form, steps),
    }
}

/// Compares the move, and the run and the listing from a tail, on at least `cases` tails each.
pub fn compare_from_tails(seed: u64, cases: usize) -> Result<TailFigures, Difference> {
    let done = jobs::run_all(cases.div_ceil(TAILS), |job| {
        let mut random = Random::new(seed, 25, job);
        let mut figures = TailFigures::default();
        for at in 0..TAILS {
            let mut narrow = reached(&mut random, Form::Narrow).narrow_bytes();
            let tail = any_tail(&mut random);
            let rest = rest_of_any_length(&mut random, &tail, at);
            let mut wide = tail.wide_bytes();
            if at % 8 == 7 {
                narrow[random.place(59)] = random.byte();
                wide[random.place(320)] = random.byte();
            }
            figures.agreed_lengths(Entry::Move(&narrow))?;
            figures.agreed_lengths(Entry::RunFrom(&wide, &rest))?;
            figures.agreed_lengths(Entry::ListingFrom(&wide, &rest))?;
        }
        Ok(figures)
    })?;
    Ok(TailFigures::sum(&done))
}

/// Mostly a short rest, and one about the greatest length in each job.
fn rest_of_any_length(random: &mut Random, tail: &Tail, at: usize) -> Vec<u8> {
    match at {
        0 => {
            let length = LIMIT - 1 + random.place(3);
            rest_of_length(random, tail, length)
        }
        1 => {
            let length = random.between(60, 600) as usize;
            rest_of_length(random, tail, length)
        }
        _ => any_rest(random, tail),
    }
}

fn compare_mark(programs: &Programs, schedule: &[u8]) -> Result<(), Difference> {
    let words = |schedule: &[u8]| format!("mark, schedule of {}", schedule_words(schedule));
    printed::compare(
        schedule,
        |bytes| programs.mark(bytes),
        second::listing,
        words,
    )
}
