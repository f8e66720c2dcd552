//! The times of the entries that no program runs in a loop: moves, runs from a tail, figures of
//! class files, and sheets. Both sides take turns at the same calls, and the ratio of their median
//! times is printed. The proved side is the archive `export`, which no compiler has put together
//! with its caller, as it does in a program; so runs of whole schedules are timed in the same way,
//! to be compared with.

use crate::class_files::{
    longest_of_headers, longest_of_one_schedule, longest_of_short_schedules, FORMS,
};
use crate::lent::packed;
use crate::proved;
use crate::random::Random;
use crate::schedules::{random_schedule, rest_of_length, schedule_of_length, steps_from, LIMIT};
use crate::sheets::asked_by;
use crate::states::{reached, TAIL};
use second::Form;
use std::time::Instant;

const SEED: u64 = 20_260_101;

/// A tail and the steps that go on from it; or no tail, and a schedule, a class file, or what asks
/// for a sheet.
type Start = (Vec<u8>, Vec<u8>);

/// An entry on one side, with its input and the lent buffer.
type Side = fn(&Start, &mut [u8]) -> u64;

/// Prints a line for each job.
pub fn print(rounds: usize) {
    let mut random = Random::new(SEED, 0, 0);
    let short = inputs(1_000, || short_schedule(&mut random));
    job("a million runs of up to 12 steps", &short, rounds, RUN);
    let longest = inputs(100, || longest_schedule(&mut random));
    job("a thousand runs of 32,768 bytes", &longest, rounds, RUN);
    let moves = inputs(1_000, || narrow_tail(&mut random));
    job("a million moves", &moves, rounds, MOVE);
    let short = inputs(1_000, || short_rest(&mut random));
    let name = "a million runs of up to 12 steps from a tail";
    job(name, &short, rounds, RUN_FROM);
    let longest = inputs(100, || longest_rest(&mut random));
    let name = "a thousand runs of 32,768 bytes from a tail";
    job(name, &longest, rounds, RUN_FROM);
    print_classes(&mut random, rounds);
    let short = inputs(1_000, || any_sheet(&mut random, 1, 1));
    job("a million sheets of n = 1, k = 1", &short, rounds, SHEET);
    let longest = inputs(100, || any_sheet(&mut random, 2, 3));
    job("a thousand sheets of n = 2, k = 3", &longest, rounds, SHEET);
}

/// Class files about the greatest length, a thousand calls each.
fn print_classes(random: &mut Random, rounds: usize) {
    for (form, name) in FORMS
        .into_iter()
        .zip(["10,922 headers 01", "5,461 headers 0B"])
    {
        let files = inputs(100, || (Vec::new(), longest_of_headers(form)));
        job(&class_name(name), &files, rounds, CLASS);
    }
    let files = inputs(100, || (Vec::new(), longest_of_short_schedules(random)));
    job(&class_name("short schedules"), &files, rounds, CLASS);
    for (form, name) in FORMS.into_iter().zip(["n = 8", "n = 32"]) {
        let files = inputs(100, || (Vec::new(), longest_of_one_schedule(random, form)));
        let name = class_name(&format!("one schedule, {name}"));
        job(&name, &files, rounds, CLASS);
    }
}

fn class_name(what: &str) -> String {
    format!("a thousand class files of {what}")
}

fn inputs(count: usize, input: impl FnMut() -> Start) -> Vec<Start> {
    std::iter::repeat_with(input).take(count).collect()
}

fn short_schedule(random: &mut Random) -> Start {
    let steps = random.place(13);
    (Vec::new(), random_schedule(random, Form::Wide, steps))
}

fn longest_schedule(random: &mut Random) -> Start {
    (Vec::new(), schedule_of_length(random, Form::Wide, LIMIT))
}

fn narrow_tail(random: &mut Random) -> Start {
    let tail = reached(random, Form::Narrow);
    (tail.narrow_bytes().to_vec(), Vec::new())
}

fn short_rest(random: &mut Random) -> Start {
    let (tail, steps) = (reached(random, Form::Wide), random.place(13));
    (tail.wide_bytes().to_vec(), steps_from(random, &tail, steps))
}

fn longest_rest(random: &mut Random) -> Start {
    let tail = reached(random, Form::Wide);
    let rest = rest_of_length(random, &tail, LIMIT);
    (tail.wide_bytes().to_vec(), rest)
}

/// A sheet with any votes.
fn any_sheet(random: &mut Random, n: u8, k: u8) -> Start {
    let votes = random.below(1 << n) as u8;
    (Vec::new(), vec![n, votes, k])
}

const RUN: [Side; 2] = [
    |(_, schedule), lent| proved::run(schedule, lent),
    |(_, schedule), lent| packed(second::run(schedule, lent)),
];

const MOVE: [Side; 2] = [
    |(tail, _), lent| proved::move_tail(tail, lent),
    |(tail, _), lent| packed(second::move_tail(tail, lent)),
];

const RUN_FROM: [Side; 2] = [
    |(tail, rest), lent| proved::run_from(tail, rest, lent),
    |(tail, rest), lent| packed(second::run_from(tail, rest, lent)),
];

const CLASS: [Side; 2] = [
    |(_, file), lent| proved::class(file, lent),
    |(_, file), lent| packed(second::put_class_text(file, lent)),
];

const SHEET: [Side; 2] = [
    |(_, input), lent| {
        let [n, votes, k] = asked_by(input);
        proved::sheet(n, votes, k, lent)
    },
    |(_, input), lent| {
        let [n, votes, k] = asked_by(input);
        packed(second::write_sheet(n, votes, k, lent))
    },
];

/// Prints the median times of both sides and their ratio. A thousand inputs are each called a thousand
/// times, a hundred ten times.
fn job(name: &str, inputs: &[Start], rounds: usize, sides: [Side; 2]) {
    let times = inputs.len().pow(2) / 1_000;
    let mut seconds = [Vec::new(), Vec::new()];
    for _ in 0..rounds {
        for (side, taken) in sides.iter().zip(&mut seconds) {
            taken.push(time(*side, inputs, times));
        }
    }
    let [proved, second] = seconds.map(median);
    println!(
        "{name}: proved {proved:.3} s, second {second:.3} s, ratio {:.2}",
        proved / second
    );
}

fn time(side: Side, inputs: &[Start], times: usize) -> f64 {
    let mut lent = vec![0; LIMIT + TAIL];
    let start = Instant::now();
    for _ in 0..times {
        for input in inputs {
            std::hint::black_box(side(input, &mut lent));
        }
    }
    start.elapsed().as_secs_f64()
}

fn median(mut seconds: Vec<f64>) -> f64 {
    seconds.sort_by(f64::total_cmp);
    seconds[seconds.len() / 2]
}
