//! Groups 31 to 35, class files: random ones, damaged ones, those about the greatest length, lent
//! texts of every length, and every short file.

use crate::class_figures::ClassFigures;
use crate::class_files::{any_damaged_file, any_file, files_of_length, short_file};
use crate::difference::Difference;
use crate::jobs;
use crate::random::Random;
use crate::replay::Programs;
use crate::schedules::LIMIT;

/// How many files a job has.
const BATCH: usize = 50;

/// How many lengths about the greatest one there are, the first of them, and which share of the
/// files the program is run on.
const LENGTHS: usize = 16;
const FIRST_LENGTH: usize = LIMIT - 8;
const PRINTED_SHARE: usize = 3;

/// The most bytes that follow a beginning, and what they are.
const MOST_BYTES: u32 = 4;
const ALPHABET: [u8; 10] = [0x00, 0x01, 0x02, 0x03, 0x06, 0x08, 0x09, 0x0A, 0x0B, 0x0C];

/// What every short string of bytes follows: nothing, a header, a header and part of the next one,
/// two headers, a schedule in which a log was closed, and one with a call and a decision, before a
/// schedule that may come to the same or to the other decision.
const BEGINNINGS: [&[u8]; 10] = [
    &[],
    &[0x01, 0x01, 0x01],
    &[0x01, 0x02, 0x03],
    &[0x0B, 0x01, 0x01, 0x00, 0x00, 0x00],
    &[0x0B, 0x20, 0xFF, 0xFF, 0xFF, 0xFF],
    &[0x01, 0x01, 0x01, 0x0B, 0x01],
    &[0x01, 0x01, 0x01, 0x0B, 0x03, 0x00, 0x00, 0x00, 0x00],
    &[0x01, 0x01, 0x01, 0x02, 0x08, 0x00, 0x07, 0x00, 0x01],
    &[
        0x01, 0x01, 0x00, 0x08, 0x01, 0x06, 0x01, 0x01, 0x01, 0x01, 0x00, 0x08, 0x01,
    ],
    &[
        0x01, 0x01, 0x00, 0x08, 0x01, 0x06, 0x01, 0x01, 0x01, 0x01, 0x01, 0x02, 0x03, 0x01, 0x01,
        0x06, 0x01, 0x01, 0x08, 0x01,
    ],
];

/// Group 31: at least `cases` random files.
pub fn random(seed: u64, cases: usize) -> Result<ClassFigures, Difference> {
    compare_files(seed, 31, cases, any_file)
}

/// Group 32: at least `cases` damaged files.
pub fn damaged(seed: u64, cases: usize) -> Result<ClassFigures, Difference> {
    compare_files(seed, 32, cases, any_damaged_file)
}

fn compare_files(
    seed: u64,
    group: u64,
    cases: usize,
    file: fn(&mut Random) -> Vec<u8>,
) -> Result<ClassFigures, Difference> {
    let done = jobs::run_all(cases.div_ceil(BATCH), |job| {
        let mut random = Random::new(seed, group, job);
        let mut figures = ClassFigures::default();
        for _ in 0..BATCH {
            figures.agreed(&file(&mut random))?;
        }
        Ok(figures)
    })?;
    Ok(ClassFigures::sum(&done))
}

/// Group 33: files about the greatest length, a share of them also through the program `class`, and
/// so an empty one and some of other lengths.
pub fn about_the_limit(programs: &Programs, seed: u64) -> Result<ClassFigures, Difference> {
    let done = jobs::run_all(LENGTHS + 1, |job| {
        let mut random = Random::new(seed, 33, job);
        let (files, share) = match job {
            LENGTHS => (files_of_any_length(&mut random), 1),
            _ => {
                let files = files_of_length(&mut random, FIRST_LENGTH + job);
                (files, PRINTED_SHARE)
            }
        };
        let mut figures = ClassFigures::default();
        for (at, file) in files.iter().enumerate() {
            figures.agreed(file)?;
            if (at + job) % share == 0 {
                figures.agreed_printed(programs, file)?;
            }
        }
        Ok(figures)
    })?;
    Ok(ClassFigures::sum(&done))
}

fn files_of_any_length(random: &mut Random) -> Vec<Vec<u8>> {
    let mut files = vec![Vec::new(), short_file(random), any_file(random)];
    files.extend((0..4).map(|_| any_damaged_file(random)));
    files
}

/// Group 34: at least `cases` files, mostly short, with lent texts of every length.
pub fn texts(seed: u64, cases: usize) -> Result<ClassFigures, Difference> {
    let done = jobs::run_all(cases.div_ceil(BATCH), |job| {
        let mut random = Random::new(seed, 34, job);
        let mut figures = ClassFigures::default();
        for at in 0..BATCH {
            let file = match at {
                0 => any_file(&mut random),
                _ if at % 4 == 1 => any_damaged_file(&mut random),
                _ => short_file(&mut random),
            };
            figures.agreed_lengths(&file)?;
        }
        Ok(figures)
    })?;
    Ok(ClassFigures::sum(&done))
}

/// Group 35: each beginning, followed by every string of up to four bytes of the alphabet.
pub fn every() -> Result<ClassFigures, Difference> {
    let done = jobs::run_all(BEGINNINGS.len(), |job| {
        let mut figures = ClassFigures::default();
        for length in 0..=MOST_BYTES {
            for string in every_string(length) {
                figures.agreed(&[BEGINNINGS[job], &string].concat())?;
            }
        }
        Ok(figures)
    })?;
    Ok(ClassFigures::sum(&done))
}

/// Every string of this many bytes of the alphabet.
fn every_string(length: u32) -> impl Iterator<Item = Vec<u8>> {
    let letters = ALPHABET.len();
    let byte = move |number: usize, at: u32| ALPHABET[number / letters.pow(at) % letters];
    (0..letters.pow(length)).map(move |number| (0..length).map(|at| byte(number, at)).collect())
}
