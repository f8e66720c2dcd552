//! Groups 22 and 23, tails that are moved or started from: of reached states, with fields about
//! their bounds, and of other lengths.

use crate::changes::{every_change, Change};
use crate::difference::Difference;
use crate::fields::put;
use crate::jobs;
use crate::lending::Entry;
use crate::random::Random;
use crate::schedules::{steps_from, LIMIT, START};
use crate::states::{damage, reached, TAIL};
use crate::tail_figures::TailFigures;
use second::{Form, Tail};

/// How many states a job has; the first one is wide, since its tail has many more fields.
const STATES: usize = 8;
/// How often each state gets a random byte, alone and beside a change, and another damage.
const RANDOM: usize = 60;

/// Lengths of tails, and of buffers.
const LENGTHS: [usize; 9] = [0, 1, 58, 59, 60, 319, 320, 321, 400];
const BUFFERS: [usize; 4] = [0, TAIL - 1, TAIL, 700];
/// Tails are handed over in every length up to this one.
const LONGEST: usize = 400;

/// Group 22: the tails of at least `cases` states of both forms, with every change.
pub fn damaged(seed: u64, cases: usize) -> Result<TailFigures, Difference> {
    let done = jobs::run_all(cases.div_ceil(STATES), |job| {
        let mut random = Random::new(seed, 22, job);
        let mut figures = TailFigures::default();
        for at in 0..STATES {
            let form = if at == 0 { Form::Wide } else { Form::Narrow };
            let tail = reached(&mut random, form);
            every_damage(&mut random, form, &tail, &mut figures)?;
        }
        Ok(figures)
    })?;
    Ok(TailFigures::sum(&done))
}

fn every_damage(
    random: &mut Random,
    form: Form,
    tail: &Tail,
    figures: &mut TailFigures,
) -> Result<(), Difference> {
    let sound = tail_bytes(form, tail);
    let rest = steps_from(random, tail, 10);
    let changes = every_change(form, tail.n);
    for change in &changes {
        hand_over(form, &changed(&sound, change), &rest, figures)?;
    }
    for _ in 0..RANDOM {
        let other = &changes[random.place(changes.len())];
        for mut bytes in [sound.clone(), changed(&sound, other)] {
            bytes[random.place(sound.len())] = random.byte();
            hand_over(form, &bytes, &rest, figures)?;
        }
        let mut bytes = tail.wide_bytes();
        damage(random, form, &mut bytes);
        hand_over(Form::Wide, &bytes, &rest, figures)?;
    }
    Ok(())
}

fn tail_bytes(form: Form, tail: &Tail) -> Vec<u8> {
    match form {
        Form::Narrow => tail.narrow_bytes().to_vec(),
        Form::Wide => tail.wide_bytes().to_vec(),
    }
}

fn changed(sound: &[u8], change: &Change) -> Vec<u8> {
    let mut bytes = sound.to_vec();
    for (field, number) in change {
        put(&mut bytes, *field, *number);
    }
    bytes
}

/// A narrow tail is moved, and what both sides make of it started from.
fn hand_over(
    form: Form,
    tail: &[u8],
    rest: &[u8],
    figures: &mut TailFigures,
) -> Result<(), Difference> {
    if form == Form::Wide {
        return start(tail, rest, figures);
    }
    let moved = figures.agreed(Entry::Move(tail))?;
    match moved.number() {
        0 => start(moved.written(), rest, figures),
        _ => Ok(()),
    }
}

fn start(tail: &[u8], rest: &[u8], figures: &mut TailFigures) -> Result<(), Difference> {
    figures.agreed(Entry::RunFrom(tail, &[]))?;
    figures.agreed(Entry::RunFrom(tail, rest))?;
    figures.agreed(Entry::ListingFrom(tail, rest))?;
    Ok(())
}

/// Group 23: tails of other lengths, made from those of at least `cases` states of both forms.
pub fn of_other_lengths(seed: u64, cases: usize) -> Result<TailFigures, Difference> {
    let forms = [Form::Narrow, Form::Wide];
    let done = jobs::run_all(cases.div_ceil(forms.len()), |job| {
        let mut random = Random::new(seed, 23, job);
        let mut figures = TailFigures::default();
        for form in forms {
            let tail = reached(&mut random, form);
            let rests = rests(&mut random, &tail);
            let sound = tail_bytes(form, &tail);
            let mut out_of_range = sound.clone();
            out_of_range[0] = random.pick(&[0, 33, 255]);
            for bytes in [sound, out_of_range] {
                every_length(&bytes, &rests, &mut figures)?;
            }
        }
        Ok(figures)
    })?;
    Ok(TailFigures::sum(&done))
}

/// Rests that are accepted, refused for a record, and about the greatest length.
fn rests(random: &mut Random, tail: &Tail) -> Vec<Vec<u8>> {
    let mut rests = vec![Vec::new(), steps_from(random, tail, 10)];
    rests.extend([vec![0], vec![6, 0], vec![1, 1, 1], vec![8, 255]]);
    for byte in [START, 255] {
        rests.extend([LIMIT, LIMIT + 1].map(|length| vec![byte; length]));
    }
    rests
}

fn every_length(
    bytes: &[u8],
    rests: &[Vec<u8>],
    figures: &mut TailFigures,
) -> Result<(), Difference> {
    for length in LENGTHS {
        let tail = resized(bytes, length);
        every_buffer(Entry::Move(&tail), figures)?;
        for rest in rests {
            every_buffer(Entry::RunFrom(&tail, rest), figures)?;
            every_buffer(Entry::ListingFrom(&tail, rest), figures)?;
        }
    }
    for length in 0..=LONGEST {
        let tail = resized(bytes, length);
        figures.agreed(Entry::Move(&tail))?;
        start(&tail, &[START], figures)?;
    }
    Ok(())
}

/// The bytes cut off, or zeros added.
fn resized(bytes: &[u8], length: usize) -> Vec<u8> {
    let mut bytes = bytes.to_vec();
    bytes.resize(length, 0);
    bytes
}

fn every_buffer(entry: Entry, figures: &mut TailFigures) -> Result<(), Difference> {
    for length in BUFFERS {
        figures.agreed_with(entry, length)?;
    }
    Ok(())
}
