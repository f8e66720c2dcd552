//! Compares the proved program with the second program, which was written apart from it, on very
//! many inputs. Every case follows from the seed. The first difference is reduced and printed, and
//! the program ends with status 1.

#![deny(unsafe_code)]

mod buffers;
mod changes;
mod class_figures;
mod class_files;
mod classes;
mod cuts;
mod difference;
mod entries;
mod fields;
mod figures;
mod frames;
mod host;
mod jobs;
mod lending;
mod lent;
mod lines;
mod printed;
#[allow(unsafe_code)]
mod proved;
mod random;
mod reduce;
mod replay;
mod rests;
mod schedules;
mod sheet_schedules;
mod sheets;
mod states;
mod steps;
mod tail_figures;
mod tails;
mod terminations;
mod times;
mod whole;

use difference::Difference;
use replay::Programs;
use second::Form;
use std::env;
use std::fmt::Display;
use std::io;
use std::process::ExitCode;

const USAGE: &str = "usage: bulk quick | bulk long CASES [SEED] | bulk times ROUNDS | \
    bulk frames short|longest|terminations|short-wide|terminations-wide | \
    bulk class headers|wide-headers|short|longest";
const SEED: u64 = 20_260_101;
/// How many random schedules the quick form has.
const QUICK: usize = 300_000;

fn main() -> ExitCode {
    let words: Vec<String> = env::args().skip(1).collect();
    match words.iter().map(String::as_str).collect::<Vec<&str>>()[..] {
        ["frames", job] => return written(frames::write(job)),
        ["class", job] => return written(class_files::write(job)),
        ["times", rounds] => return print_times(rounds),
        _ => (),
    }
    let Some((cases, seed)) = asked(&words) else {
        eprintln!("{USAGE}");
        return ExitCode::from(2);
    };
    println!("seed {seed}");
    match compare(cases, seed) {
        Ok((schedules, calls)) => {
            println!(
                "compared: {schedules} schedules, {calls} further calls, \
                 no difference (seed {seed})"
            );
            ExitCode::SUCCESS
        }
        Err((group, difference)) => {
            println!("DIFFERENCE in group {group} (seed {seed}, {cases} cases)\n{difference}");
            ExitCode::FAILURE
        }
    }
}

/// How the program ends that wrote the frames or the class file of a job, on which programs are
/// timed; there may be no job of that name.
fn written(outcome: Option<io::Result<()>>) -> ExitCode {
    match outcome {
        Some(Ok(())) => ExitCode::SUCCESS,
        Some(Err(error)) => {
            eprintln!("bulk: {error}");
            ExitCode::FAILURE
        }
        None => {
            eprintln!("{USAGE}");
            ExitCode::from(2)
        }
    }
}

/// The times of the entries that no program runs in a loop.
fn print_times(rounds: &str) -> ExitCode {
    match rounds.parse() {
        Ok(rounds) if rounds > 0 => {
            times::print(rounds);
            ExitCode::SUCCESS
        }
        _ => {
            eprintln!("{USAGE}");
            ExitCode::from(2)
        }
    }
}

/// How many random schedules are asked for, and the seed.
fn asked(words: &[String]) -> Option<(usize, u64)> {
    let words: Vec<&str> = words.iter().map(String::as_str).collect();
    match words[..] {
        ["quick"] => Some((QUICK, SEED)),
        ["long", cases] => Some((cases.parse().ok()?, SEED)),
        ["long", cases, seed] => Some((cases.parse().ok()?, seed.parse().ok()?)),
        _ => None,
    }
}

/// The numbers of schedules and of further calls compared; or the group that has a difference.
type Compared = Result<(u64, u64), (&'static str, Difference)>;

/// Runs every group; the further counts are in proportion to that of the random schedules.
fn compare(cases: usize, seed: u64) -> Compared {
    let narrow = compare_narrow(cases, seed)?;
    let wide = compare_wide(cases / 3, seed)?;
    let moves = compare_moves(cases, seed)?;
    let classes = compare_classes(cases, seed)?;
    let sheets = compare_sheets(cases, seed)?;
    let parts = [narrow, wide, moves, classes, sheets];
    let schedules = parts.iter().map(|(schedules, _)| schedules);
    let calls = parts.iter().map(|(_, calls)| calls);
    Ok((schedules.sum(), calls.sum()))
}

/// The groups of narrow schedules, and of the entries that know no header.
fn compare_narrow(cases: usize, seed: u64) -> Compared {
    let (programs, form) = (Programs::find(), Form::Narrow);
    let random = whole::random(&programs, seed, cases, form);
    let random = shown("1, random schedules", random)?;
    let every = shown("2, every short schedule", whole::every(&programs, form))?;
    let damaged = whole::damaged(&programs, seed, cases / 2, form);
    let damaged = shown("3, damaged schedules", damaged)?;
    let buffers = buffers::compare(&programs, seed, cases / 150, form);
    let buffers = shown("4, run and listing into lent buffers", buffers)?;
    let host = shown("5, the host entry", host::compare(seed, cases * 10))?;
    let entries = entries::compare(seed, cases);
    let entries = shown("6, writer, reader and log entries", entries)?;
    let steps = shown("7, the single step", steps::compare(seed, cases / 100))?;
    let schedules = random.schedules() + every.schedules() + damaged.schedules();
    let calls = buffers.calls() + host.calls() + entries.calls() + steps.calls();
    Ok((schedules, calls))
}

/// The groups of wide schedules.
fn compare_wide(cases: usize, seed: u64) -> Compared {
    let (programs, form) = (Programs::find(), Form::Wide);
    let random = whole::random(&programs, seed, cases, form);
    let random = shown("11, random wide schedules", random)?;
    let every = whole::every(&programs, form);
    let every = shown("12, every short wide schedule", every)?;
    let damaged = whole::damaged(&programs, seed, cases / 2, form);
    let damaged = shown("13, damaged wide schedules", damaged)?;
    let buffers = buffers::compare(&programs, seed, cases / 150, form);
    let buffers = shown(
        "14, run and listing of wide schedules into lent buffers",
        buffers,
    )?;
    let steps = steps::compare_runs(seed, cases / 300, form);
    let steps = shown("17, the single step of wide states", steps)?;
    let schedules = random.schedules() + every.schedules() + damaged.schedules();
    Ok((schedules, buffers.calls() + steps.calls()))
}

/// The groups of moved tails and of runs from a tail.
fn compare_moves(cases: usize, seed: u64) -> Compared {
    let cuts = shown("21, cuts of schedules", cuts::compare(seed, cases / 100))?;
    let damaged = tails::damaged(seed, cases / 1_000);
    let damaged = shown("22, damaged tails", damaged)?;
    let lengths = tails::of_other_lengths(seed, cases / 6_000);
    let lengths = shown("23, tails of other lengths", lengths)?;
    let rests = shown("24, rests of steps", rests::compare(seed, cases / 500))?;
    let buffers = buffers::compare_from_tails(seed, cases / 2_000);
    let buffers = shown("25, moves and runs from a tail into lent buffers", buffers)?;
    let tails = [&damaged, &lengths, &rests, &buffers].map(|figures| figures.calls());
    Ok((cuts.schedules(), cuts.calls() + tails.iter().sum::<u64>()))
}

/// The groups of class files. Their schedules are not compared one by one, so that each file is a
/// call and no schedule.
fn compare_classes(cases: usize, seed: u64) -> Compared {
    let random = shown("31, class files", classes::random(seed, cases / 50))?;
    let damaged = classes::damaged(seed, cases / 10);
    let damaged = shown("32, damaged class files", damaged)?;
    let limits = classes::about_the_limit(&Programs::find(), seed);
    let limits = shown("33, class files about the greatest length", limits)?;
    let texts = classes::texts(seed, cases / 500);
    let texts = shown("34, class files into lent texts", texts)?;
    let every = shown("35, every short class file", classes::every())?;
    let files = [&random, &damaged, &limits, &texts, &every].map(|figures| figures.calls());
    Ok((0, files.iter().sum()))
}

/// The groups of sheets.
fn compare_sheets(cases: usize, seed: u64) -> Compared {
    let bounds = sheets::about_the_bounds();
    let bounds = shown("41, sheets in and about the bounds", bounds)?;
    let buffers = shown("42, sheets into lent buffers", sheets::buffers())?;
    let random = shown("43, random sheets", sheets::random(seed, cases / 100))?;
    let schedules = sheet_schedules::compare(&Programs::find());
    let schedules = shown("44, what stands on a sheet", schedules)?;
    let calls = [&bounds, &buffers, &random].map(|figures| figures.calls());
    let calls = calls.iter().sum::<u64>() + schedules.calls();
    Ok((schedules.schedules(), calls))
}

/// Prints the group's figures, or names the group that has the difference.
fn shown<T: Display>(
    group: &'static str,
    outcome: Result<T, Difference>,
) -> Result<T, (&'static str, Difference)> {
    let figures = outcome.map_err(|difference| (group, difference))?;
    println!("{group}: {figures}");
    Ok(figures)
}
