//! Frames of random schedules for the measurement of speed, one job a name. The same name gives the
//! same frames.

use crate::random::Random;
use crate::replay::frames;
use crate::schedules::{header_bytes, random_schedule, schedule_of_length, Run, LIMIT};
use crate::terminations;
use second::{Form, Header};
use std::io::{self, Write};

const SEED: u64 = 20_260_101;
/// How many schedules are put into frames and written at a time.
const BATCH: usize = 1_000;

/// Writes the frames of a job to standard output; nothing if there is no job of that name.
pub fn write(job: &str) -> Option<io::Result<()>> {
    let (count, schedule): (usize, fn(&mut Random) -> Vec<u8>) = match job {
        "short" => (1_000_000, |random| short(random, Form::Narrow)),
        "longest" => (1_000, |random| {
            schedule_of_length(random, Form::Narrow, LIMIT)
        }),
        "terminations" => (50_000, terminations),
        "short-wide" => (1_000_000, |random| short(random, Form::Wide)),
        "terminations-wide" => (1_000, terminations::longest),
        _ => return None,
    };
    Some(write_all(count, schedule))
}

fn write_all(count: usize, schedule: fn(&mut Random) -> Vec<u8>) -> io::Result<()> {
    let mut output = io::stdout().lock();
    for batch in 0..count.div_ceil(BATCH) {
        let mut random = Random::new(SEED, 0, batch);
        let schedules: Vec<Vec<u8>> = (0..BATCH.min(count))
            .map(|_| schedule(&mut random))
            .collect();
        output.write_all(&frames(&schedules))?;
    }
    output.flush()
}

/// At most 12 steps.
fn short(random: &mut Random, form: Form) -> Vec<u8> {
    let steps = random.place(13);
    random_schedule(random, form, steps)
}

/// Eight participants that vote yes and wait too long, so that they terminate; 300 steps.
fn terminations(random: &mut Random) -> Vec<u8> {
    let header = Header {
        kind: Form::Narrow.header_kind(),
        n: 8,
        votes: 0xFF,
    };
    let mut run = Run::terminating(header);
    let mut bytes = header_bytes(run.header);
    for _ in 0..300 {
        run.append_step(random, &mut bytes);
    }
    bytes
}
