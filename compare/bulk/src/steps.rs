//! Group 7, the single step: states that random runs reach, the same with a damaged field, and
//! states in range that no run reaches; group 17 is the same for states of wide schedules.

use crate::difference::{tail_words, Difference};
use crate::figures::{add, due_words, EndedByDecision, Numbers, ReportBytes};
use crate::jobs;
use crate::lent::pattern;
use crate::proved;
use crate::random::Random;
use crate::reduce;
use crate::schedules::{any_step, every_step, group, Run};
use crate::states::{built, damage, every_of_one, TAIL};
use second::{log_entry, Form, Log, Tail};
use std::fmt;

/// How many runs and how many built states a job has.
const RUNS: usize = 20;
const BUILT: usize = 40;
/// How many steps a run has.
const STEPS: u32 = 60;

/// Counts of calls up to the greatest that a single step takes.
const COUNTS: [u16; 7] = [0, 1, 255, 256, 10_000, 65_533, 65_534];

/// The lent bytes of a tail, and some beyond.
const ROOM: usize = TAIL + 5;

/// The number answered and the report byte, packed as the proved side packs them, and the state's
/// bytes afterwards.
type Stepped = (u32, [u8; ROOM]);

#[derive(Clone, Copy, Default)]
pub struct StepFigures {
    numbers: Numbers,
    report_bytes: ReportBytes,
    due: [u64; 11],
    /// Calls whose Log would be refused.
    log_refused: u64,
    /// Calls whose answer the state cannot get.
    answer_unfit: u64,
    ended_by_decision: EndedByDecision,
}

impl StepFigures {
    fn note(&mut self, tail: &Tail, step: [u32; 3], answer: u32) {
        let (number, byte) = (answer & 0xFF, answer >> 8);
        self.numbers.note(number);
        match number {
            0 => {
                self.report_bytes.note(byte as u8);
                self.due[step[0] as usize] += 1;
                self.ended_by_decision.note(tail, step, byte as u8);
            }
            7 => self.note_call_not_due(tail, step),
            _ => (),
        }
    }

    /// Counts the own calls that are pending and still not due.
    fn note_call_not_due(&mut self, tail: &Tail, [kind, party, log]: [u32; 3]) {
        if !(kind == 6 || kind == 7) || party != log {
            return;
        }
        let own = tail.participants[party as usize - 1];
        let (first, last) = (own.first, own.last);
        let refused = |record| u64::from(log_entry(Log { first, last }, record).is_err());
        match own.state {
            1 => self.answer_unfit += u64::from(last == 3),
            5 => self.log_refused += refused(3),
            6 => self.log_refused += refused(2),
            _ => (),
        }
    }

    fn add(&mut self, other: &StepFigures) {
        self.numbers.add(&other.numbers);
        self.report_bytes.add(&other.report_bytes);
        add(&mut self.due, &other.due);
        self.log_refused += other.log_refused;
        self.answer_unfit += other.answer_unfit;
        self.ended_by_decision.add(&other.ended_by_decision);
    }

    pub fn calls(&self) -> u64 {
        self.numbers.total()
    }
}

impl fmt::Display for StepFigures {
    fn fmt(&self, to: &mut fmt::Formatter) -> fmt::Result {
        write!(
            to,
            "{} steps: {}; {}; {}; \
             not due since Log would be refused: {}, since the state cannot get the answer: {}; \
             terminations that a delivered decision ended: {}",
            self.calls(),
            self.numbers,
            self.report_bytes,
            due_words(&self.due),
            self.log_refused,
            self.answer_unfit,
            self.ended_by_decision
        )
    }
}

/// Compares steps from every state in range of n = 1, and from further states of the narrow form.
pub fn compare(seed: u64, cases: usize) -> Result<StepFigures, Difference> {
    let single = jobs::run_all(14, |job| {
        let mut figures = StepFigures::default();
        for tail in every_of_one(job as u32 / 7, job as u32 % 7) {
            every_step_of(&tail, &mut figures)?;
        }
        Ok(figures)
    })?;
    let mut whole = compare_runs(seed, cases, Form::Narrow)?;
    single.iter().for_each(|part| whole.add(part));
    Ok(whole)
}

/// Compares steps from the states of at least `cases` runs of this form, and from twice as many
/// built states.
pub fn compare_runs(seed: u64, cases: usize, form: Form) -> Result<StepFigures, Difference> {
    let done = jobs::run_all(cases.div_ceil(RUNS), |job| {
        let mut random = Random::new(seed, group(7, form), job);
        let mut figures = StepFigures::default();
        for _ in 0..RUNS {
            follow_run(&mut random, form, &mut figures)?;
        }
        for _ in 0..BUILT {
            let tail = built(&mut random, form, &COUNTS);
            every_step_of(&tail, &mut figures)?;
            odd_steps(&tail, &mut random, form, &mut figures)?;
            damaged_states(&tail, &mut random, form, &mut figures)?;
        }
        Ok(figures)
    })?;
    let mut whole = StepFigures::default();
    done.iter().for_each(|part| whole.add(part));
    Ok(whole)
}

fn follow_run(
    random: &mut Random,
    form: Form,
    figures: &mut StepFigures,
) -> Result<(), Difference> {
    let mut run = Run::fresh(random, form, false);
    for at in 0..STEPS {
        if random.one_in(12) {
            every_step_of(&run.tail, figures)?;
            odd_steps(&run.tail, random, form, figures)?;
        }
        damaged_states(&run.tail, random, form, figures)?;
        if run.step(random).is_none() && at % 2 == 0 {
            break;
        }
    }
    Ok(())
}

fn every_step_of(tail: &Tail, figures: &mut StepFigures) -> Result<(), Difference> {
    let bytes = tail.wide_bytes();
    for step in every_step(tail.n) {
        let step = [step.kind, step.first, step.second];
        compare_step(&bytes, step, TAIL, figures)?;
    }
    Ok(())
}

/// Steps that are mostly out of range, and lent slices of other lengths.
fn odd_steps(
    tail: &Tail,
    random: &mut Random,
    form: Form,
    figures: &mut StepFigures,
) -> Result<(), Difference> {
    let bytes = &tail.wide_bytes();
    for _ in 0..20 {
        let step = any_step(random, form.most_participants());
        let mut step = [step.kind, step.first, step.second];
        compare_step(bytes, step, random.place(ROOM), figures)?;
        for _ in 0..2 {
            step[random.place(3)] = odd_number(random, form);
            compare_step(bytes, step, TAIL, figures)?;
        }
    }
    Ok(())
}

fn odd_number(random: &mut Random, form: Form) -> u32 {
    match form {
        Form::Narrow => random.number(),
        Form::Wide => random.wide_number(),
    }
}

/// The state with one or two damaged fields, under steps in range.
fn damaged_states(
    tail: &Tail,
    random: &mut Random,
    form: Form,
    figures: &mut StepFigures,
) -> Result<(), Difference> {
    for _ in 0..6 {
        let mut bytes = tail.wide_bytes();
        damage(random, form, &mut bytes);
        if random.one_in(6) {
            damage(random, form, &mut bytes);
        }
        for _ in 0..3 {
            let step = any_step(random, tail.n);
            let step = [step.kind, step.first, step.second];
            compare_step(&bytes, step, TAIL, figures)?;
        }
    }
    Ok(())
}

fn compare_step(
    bytes: &[u8; TAIL],
    step: [u32; 3],
    length: usize,
    figures: &mut StepFigures,
) -> Result<(), Difference> {
    let second = step_second(bytes, step, length);
    if step_proved(bytes, step, length) != second {
        return Err(reduced(bytes, step, length));
    }
    figures.note(&Tail::from_bytes(Form::Wide, bytes), step, second.0);
    Ok(())
}

/// The state's bytes, and the pattern beyond them.
fn lent_bytes(bytes: &[u8; TAIL]) -> [u8; ROOM] {
    std::array::from_fn(|place| bytes.get(place).copied().unwrap_or(pattern(place)))
}

fn step_proved(bytes: &[u8; TAIL], step: [u32; 3], length: usize) -> Stepped {
    let mut lent = lent_bytes(bytes);
    let answer = proved::single_step(&mut lent[..length], step);
    (answer, lent)
}

/// A slice that is too short for a tail is refused with 6.
fn step_second(bytes: &[u8; TAIL], step: [u32; 3], length: usize) -> Stepped {
    let mut lent = lent_bytes(bytes);
    if length < TAIL {
        return (6, lent);
    }
    let [kind, first, second] = step;
    match second::single_step(&Tail::from_bytes(Form::Wide, bytes), kind, first, second) {
        Ok((next, byte)) => {
            lent[..TAIL].copy_from_slice(&next.wide_bytes());
            (u32::from(byte) << 8, lent)
        }
        Err(number) => (number, lent),
    }
}

/// Lowers the step's numbers and every byte of the state.
fn reduced(bytes: &[u8; TAIL], step: [u32; 3], length: usize) -> Difference {
    let split = |all: &[u32]| -> ([u8; TAIL], [u32; 3]) {
        let bytes = std::array::from_fn(|place| all[place] as u8);
        (bytes, [all[TAIL], all[TAIL + 1], all[TAIL + 2]])
    };
    let state: Vec<u32> = bytes.iter().map(|byte| u32::from(*byte)).collect();
    let smallest = reduce::numbers(&[&state[..], &step].concat(), |all| {
        let (bytes, step) = split(all);
        step_proved(&bytes, step, length) != step_second(&bytes, step, length)
    });
    let (bytes, step) = split(&smallest);
    let words = |(answer, lent): Stepped| {
        let (number, byte) = (answer & 0xFF, answer >> 8);
        format!(
            "number {number}, report byte {byte}, state afterwards {}",
            tail_words(Form::Wide, &lent)
        )
    };
    let [kind, first, second] = step;
    Difference {
        input: format!(
            "single step, kind {kind}, numbers {first} and {second}, \
             a slice of {length} bytes, state {}",
            tail_words(Form::Wide, &bytes)
        ),
        proved: words(step_proved(&bytes, step, length)),
        second: words(step_second(&bytes, step, length)),
    }
}
