//! Class files: sound ones with schedules of both forms, damaged ones, those of a given length, and
//! those for the measurement of speed.

use crate::random::Random;
use crate::schedules::{
    any_header, any_step, append, body_length, full, header_bytes, random_schedule, record_ends,
    records, schedule_of_length, schedule_under, silent_schedule, voted_schedule, LIMIT, START,
};
use crate::whole::damage;
use second::{Form, Header};
use std::io::{self, Write};

const SEED: u64 = 20_260_101;

pub const FORMS: [Form; 2] = [Form::Narrow, Form::Wide];

/// Kinds that are unknown.
const UNKNOWN: [u8; 5] = [0, 12, 13, 128, 255];

/// A sound file of up to 400 schedules.
pub fn any_file(random: &mut Random) -> Vec<u8> {
    let most = random.pick(&[1, 3, 20, 20, 100, 400]);
    let count = random.between(1, most);
    let steps = random.pick(&[0, 2, 12, 12, 40, 120]);
    file_of(random, count, steps)
}

/// A sound file of few schedules.
pub fn short_file(random: &mut Random) -> Vec<u8> {
    let count = random.between(1, 6);
    let steps = random.pick(&[0, 2, 12]);
    file_of(random, count, steps)
}

/// A file of this many schedules, as far as they fit. In some files all are equal.
fn file_of(random: &mut Random, count: u32, most_steps: usize) -> Vec<u8> {
    let are_equal = random.one_in(6);
    let mut schedule = any_schedule(random, most_steps);
    let mut file = Vec::new();
    for _ in 0..count {
        if file.len() + schedule.len() > LIMIT {
            break;
        }
        file.extend_from_slice(&schedule);
        if !are_equal {
            schedule = any_schedule(random, most_steps);
        }
    }
    file
}

/// A schedule without steps, or with at most this many; some have those to all votes before, and
/// where many are wanted, some have many more.
fn any_schedule(random: &mut Random, most_steps: usize) -> Vec<u8> {
    let form = random.pick(&FORMS);
    let steps = random.place(most_steps + 1);
    match random.below(12) {
        0 => header_bytes(any_header(random, form)),
        1 => voted_schedule(random, form, steps),
        2 => silent_schedule(random, form, steps),
        3 if most_steps > 40 => {
            let length = random.between(60, 1_800) as usize;
            schedule_of_length(random, form, length)
        }
        _ => random_schedule(random, form, steps),
    }
}

/// A file with a damage, which may have left it sound.
pub fn any_damaged_file(random: &mut Random) -> Vec<u8> {
    let mut file = match random.below(20) {
        0 => any_file(random),
        _ => short_file(random),
    };
    match random.below(9) {
        0 | 1 => (0..random.between(1, 3)).for_each(|_| damage(random, &mut file)),
        2 => put_header_out_of_range(random, &mut file),
        3 => cut_header(random, &mut file),
        4 => remove_header(random, &mut file),
        5 => {
            let form = random.pick(&FORMS);
            let header = header_bytes(any_header(random, form));
            insert(random, &mut file, &header);
        }
        6 => {
            let kind = random.pick(&UNKNOWN);
            insert(random, &mut file, &[kind]);
        }
        7 => put_step_first(random, &mut file),
        _ => {
            let length = random.place(30);
            file.extend((0..length).map(|_| random.below(13) as u8));
        }
    }
    file
}

/// The places at which a header begins.
pub fn header_places(file: &[u8]) -> Vec<usize> {
    let mut places = Vec::new();
    let mut place = 0;
    for record in records(file) {
        if matches!(record[0], 1 | 11) {
            places.push(place);
        }
        place += record.len();
    }
    places
}

/// The schedules of an accepted file, of which these are the places of the headers.
pub fn schedules_at<'a>(file: &'a [u8], places: &[usize]) -> Vec<&'a [u8]> {
    let bounds = [places, &[file.len()]].concat();
    let schedules = bounds.windows(2).map(|ends| &file[ends[0]..ends[1]]);
    schedules.collect()
}

/// Gives one of the headers an n out of range or a vote beyond n. Of the greatest n, no vote is
/// beyond.
fn put_header_out_of_range(random: &mut Random, file: &mut [u8]) {
    let place = random.pick(&header_places(file));
    let most = Form::under(u32::from(file[place])).most_participants();
    if random.one_in(2) {
        file[place + 1] = random.pick(&[0, most as u8 + 1, 255]);
        return;
    }
    let n = u32::from(file[place + 1]);
    let vote = random.between(n.min(most - 1), most - 1) as usize;
    file[place + 2 + vote / 8] |= 1 << (vote % 8);
}

/// Ends the file inside one of the headers.
fn cut_header(random: &mut Random, file: &mut Vec<u8>) {
    let place = random.pick(&header_places(file));
    let body = body_length(file[place]).unwrap_or(0) as u32;
    file.truncate(place + random.between(1, body) as usize);
}

/// Leaves one of the headers out, so that its steps stand under the one before, or first.
fn remove_header(random: &mut Random, file: &mut Vec<u8>) {
    let place = random.pick(&header_places(file));
    let body = body_length(file[place]).unwrap_or(0);
    file.drain(place..=place + body);
}

/// Puts these bytes before the first record or after one of them.
fn insert(random: &mut Random, file: &mut Vec<u8>, piece: &[u8]) {
    let places = [vec![0], record_ends(file)].concat();
    let place = random.pick(&places);
    file.splice(place..place, piece.iter().copied());
}

fn put_step_first(random: &mut Random, file: &mut Vec<u8>) {
    let mut step = Vec::new();
    append(&mut step, any_step(random, 8));
    file.splice(0..0, step);
}

/// Files of just this many bytes, which is not few: headers alone, the last one cut short or starts
/// after it; one schedule; many; many with a changed byte near the end; and an unknown kind first.
pub fn files_of_length(random: &mut Random, length: usize) -> Vec<Vec<u8>> {
    let mut files = vec![vec![0; length]];
    for form in FORMS {
        let header = any_header(random, form);
        let cut = header_bytes(header).into_iter().cycle().take(length);
        files.push(cut.collect());
        let mut whole = headers(header, length);
        whole.resize(length, START);
        files.push(whole);
        files.push(schedule_of_length(random, form, length));
    }
    files.push(short_schedules(random, length));
    let mut changed = short_schedules(random, length);
    let place = length - 1 - random.place(8);
    changed[place] = random.byte();
    files.push(changed);
    files
}

/// As many of this header as fit this many bytes.
fn headers(header: Header, length: usize) -> Vec<u8> {
    let header = header_bytes(header);
    header.repeat(length / header.len())
}

/// Schedules of both forms with at most 12 steps each, up to just this many bytes.
fn short_schedules(random: &mut Random, length: usize) -> Vec<u8> {
    let mut file = Vec::new();
    loop {
        let (form, steps) = (random.pick(&FORMS), random.place(13));
        let schedule = random_schedule(random, form, steps);
        if file.len() + schedule.len() > length {
            // A start always fits.
            file.resize(length, START);
            return file;
        }
        file.extend(schedule);
    }
}

/// The header with the greatest n of this form, every vote yes.
fn greatest_header(form: Form) -> Header {
    let n = form.most_participants();
    Header {
        kind: form.header_kind(),
        n,
        votes: full(n),
    }
}

/// As many headers of the greatest n as fit a file.
pub fn longest_of_headers(form: Form) -> Vec<u8> {
    headers(greatest_header(form), LIMIT)
}

/// A file of the greatest length with short schedules of both forms.
pub fn longest_of_short_schedules(random: &mut Random) -> Vec<u8> {
    short_schedules(random, LIMIT)
}

/// A file of the greatest length with one schedule of the greatest n.
pub fn longest_of_one_schedule(random: &mut Random, form: Form) -> Vec<u8> {
    schedule_under(random, greatest_header(form), LIMIT)
}

/// Writes the file of a job to standard output; nothing if there is no job of that name.
pub fn write(job: &str) -> Option<io::Result<()>> {
    let mut random = Random::new(SEED, 0, 0);
    let file = match job {
        "headers" => longest_of_headers(Form::Narrow),
        "wide-headers" => longest_of_headers(Form::Wide),
        "short" => longest_of_short_schedules(&mut random),
        "longest" => longest_of_one_schedule(&mut random, Form::Narrow),
        _ => return None,
    };
    Some(io::stdout().lock().write_all(&file))
}
