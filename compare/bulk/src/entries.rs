//! Group 6, the entries on single records: the writer, the reader and the two log entries.

use crate::difference::{hexadecimal, Difference};
use crate::figures::Numbers;
use crate::jobs;
use crate::lent::{lend, packed, Lent};
use crate::proved;
use crate::random::Random;
use crate::reduce;
use crate::schedules::any_header;
use second::{Form, Header, Log, Performed};
use std::fmt;

/// How many random cases a job has.
const BATCH: usize = 10_000;

/// Numbers of a record beyond the small ones.
const EDGES: [u32; 13] = [
    31,
    32,
    33,
    127,
    255,
    256,
    257,
    65_536,
    (1 << 31) - 1,
    1 << 31,
    (1 << 31) + 1,
    u32::MAX - 1,
    u32::MAX,
];
/// Places to write at; from 32,769 on they are out of range.
const PLACES: [u32; 9] = [0, 1, 2, 32_766, 32_767, 32_768, 32_769, 32_770, u32::MAX];
/// Buffers of the greatest places end about here.
const GREATEST: usize = 32_768;
/// Added to the record that a log entry answers where the call wrote the log's first record.
const WROTE: u32 = 4;
/// Bytes for the reader.
const BYTES: [u8; 19] = [
    0, 1, 2, 3, 4, 5, 6, 7, 8, 9, 10, 11, 12, 31, 32, 33, 127, 128, 255,
];
const SHORT: [&[u8]; 3] = [&BYTES; 3];
/// Bytes for n and for the vote mask of a wide header.
const WIDE_N: [u8; 9] = [0, 1, 8, 9, 16, 31, 32, 33, 255];
const WIDE_VOTES: &[u8] = &[0, 1, 127, 128, 255];
/// A wide header and one byte more.
const WIDE: [&[u8]; 7] = [
    &[11],
    &WIDE_N,
    WIDE_VOTES,
    WIDE_VOTES,
    WIDE_VOTES,
    WIDE_VOTES,
    &[0, 2, 11],
];
/// Kinds that the reader is told as a header's; the last one is none.
const TOLD_KINDS: [u32; 3] = [1, 11, 2];
const TOLD_N: [u32; 14] = [0, 1, 2, 3, 4, 5, 6, 7, 8, 9, 16, 31, 32, 33];

#[derive(Clone, Copy, Default)]
pub struct EntryFigures {
    writer: Numbers,
    reader: Numbers,
    log_once: Numbers,
    log: Numbers,
}

impl EntryFigures {
    pub fn calls(&self) -> u64 {
        self.writer.total() + self.reader.total() + self.log_once.total() + self.log.total()
    }

    fn add(&mut self, other: &EntryFigures) {
        self.writer.add(&other.writer);
        self.reader.add(&other.reader);
        self.log_once.add(&other.log_once);
        self.log.add(&other.log);
    }
}

impl fmt::Display for EntryFigures {
    fn fmt(&self, to: &mut fmt::Formatter) -> fmt::Result {
        write!(
            to,
            "writer: {}; reader: {}; LogOnce: {}; Log: {}",
            self.writer, self.reader, self.log_once, self.log
        )
    }
}

/// Compares the fixed cases of all entries, and at least `cases` random ones of the reader and of
/// the writer.
pub fn compare(seed: u64, cases: usize) -> Result<EntryFigures, Difference> {
    let mut whole = EntryFigures::default();
    compare_logs(&mut whole)?;
    let written = jobs::run_all(PLACES.len(), |job| write_every(PLACES[job]))?;
    let headers = headers();
    let read = jobs::run_all(headers.len(), |job| read_every(&headers[job]))?;
    let random = jobs::run_all(cases.div_ceil(BATCH), |job| {
        random_records(&mut Random::new(seed, 6, job))
    })?;
    for part in [written, read, random].iter().flatten() {
        whole.add(part);
    }
    Ok(whole)
}

fn write_every(place: u32) -> Result<EntryFigures, Difference> {
    let mut figures = EntryFigures::default();
    for kind in (0..=13).chain([255, 256, 258, 267, 65_539, u32::MAX]) {
        for first in (0..=10).chain(EDGES) {
            for second in (0..=10).chain(EDGES) {
                write_lengths(place, [kind, first, second], &mut figures.writer)?;
            }
        }
    }
    Ok(figures)
}

/// Buffers that end before, within and after the record.
fn write_lengths(place: u32, record: [u32; 3], numbers: &mut Numbers) -> Result<(), Difference> {
    let end = GREATEST.min(place as usize);
    for length in [0].into_iter().chain(end..=end + 7) {
        compare_write(length, place, record, numbers)?;
    }
    Ok(())
}

fn compare_write(
    length: usize,
    place: u32,
    record: [u32; 3],
    numbers: &mut Numbers,
) -> Result<(), Difference> {
    let (proved, second) = write_both(length, place, record);
    if proved != second {
        return Err(reduced_write(length, place, record));
    }
    numbers.note(second.number());
    Ok(())
}

fn reduced_write(length: usize, place: u32, record: [u32; 3]) -> Difference {
    let split = |all: &[u32]| (all[0] as usize, all[1], [all[2], all[3], all[4]]);
    let all = [length as u32, place, record[0], record[1], record[2]];
    let smallest = reduce::numbers(&all, |all| {
        let (length, place, record) = split(all);
        let (proved, second) = write_both(length, place, record);
        proved != second
    });
    let (length, place, record) = split(&smallest);
    let (proved, second) = write_both(length, place, record);
    let [kind, one, other] = record;
    Difference {
        input: format!(
            "writer, buffer of {length} bytes, place {place}, \
             kind {kind}, numbers {one} and {other}"
        ),
        proved: proved.words(),
        second: second.words(),
    }
}

fn write_both(length: usize, place: u32, record: [u32; 3]) -> (Lent, Lent) {
    let [kind, first, second] = record;
    let by_proved = lend(length, |buffer| proved::write_record(buffer, place, record));
    let by_second = lend(length, |buffer| {
        let place = place as usize;
        packed(second::write_record(buffer, place, kind, first, second))
    });
    (by_proved, by_second)
}

/// Every string of up to three bytes, and those of wide headers, after each of these headers.
fn read_every(headers: &[Option<Header>]) -> Result<EntryFigures, Difference> {
    let mut figures = EntryFigures::default();
    for bytes in [every_string(&SHORT), every_string(&WIDE)].concat() {
        for header in headers {
            compare_read(&bytes, *header, &mut figures.reader)?;
        }
    }
    Ok(figures)
}

/// No header, and for each kind and n headers with votes within and beyond n.
fn headers() -> Vec<Vec<Option<Header>>> {
    let mut headers = vec![vec![None]];
    for kind in TOLD_KINDS {
        for n in TOLD_N {
            // The votes of 33 would take a bit more than there is.
            let full = u32::MAX.checked_shr(32 - n.min(32)).unwrap_or(0);
            let beyond = full.wrapping_add(1);
            let votes = [0, 1, full / 2, full, beyond, 255, 256, u32::MAX];
            headers.push(votes.map(|votes| Some(Header { kind, n, votes })).to_vec());
        }
    }
    headers
}

/// Every string, of any length, that has at each place one of the bytes given for that place.
pub fn every_string(choices: &[&[u8]]) -> Vec<Vec<u8>> {
    let mut strings = vec![Vec::new()];
    let mut start = 0;
    for choice in choices {
        let end = strings.len();
        for at in start..end {
            let longer = choice
                .iter()
                .map(|byte| [&strings[at][..], &[*byte]].concat());
            let longer: Vec<Vec<u8>> = longer.collect();
            strings.extend(longer);
        }
        start = end;
    }
    strings
}

fn compare_read(
    bytes: &[u8],
    before: Option<Header>,
    numbers: &mut Numbers,
) -> Result<(), Difference> {
    let second = read_second(bytes, before);
    if proved::read_record(bytes, before) == second {
        numbers.note(read_number(second));
        return Ok(());
    }
    let differs = |bytes: &[u8]| proved::read_record(bytes, before) != read_second(bytes, before);
    let smallest = reduce::schedule(bytes, differs);
    Err(Difference {
        input: format!("reader, bytes {}, told {before:?}", hexadecimal(&smallest)),
        proved: read_words(proved::read_record(&smallest, before)),
        second: read_words(read_second(&smallest, before)),
    })
}

/// The second program's answer, packed as the proved side packs it.
fn read_second(bytes: &[u8], before: Option<Header>) -> u64 {
    let (three, last) = match second::read_record(bytes, before) {
        Ok((record, length)) => ([record.kind, record.first, length as u32], record.second),
        Err(refusal) => ([0, refusal.number, 0], refusal.value as u32),
    };
    let [a, b, c] = three;
    u64::from(packed_bytes([a, b, c, 0])) | u64::from(last) << 24
}

/// The number of the refusal in a reader's answer, or 0.
fn read_number(answer: u64) -> u32 {
    match answer & 0xFF {
        0 => (answer >> 8) as u32 & 0xFF,
        _ => 0,
    }
}

fn read_words(answer: u64) -> String {
    let [kind, first, length, ..] = answer.to_le_bytes();
    let last = answer >> 24;
    match kind {
        0 => format!("refused {first} at {last} (hexadecimal {answer:014X})"),
        _ => format!("kind {kind}, numbers {first} and {last}, {length} bytes"),
    }
}

/// Four numbers below 256 in one, the first lowest.
fn packed_bytes(numbers: [u32; 4]) -> u32 {
    assert!(numbers.iter().all(|number| *number < 256));
    numbers[0] | numbers[1] << 8 | numbers[2] << 16 | numbers[3] << 24
}

fn random_records(random: &mut Random) -> Result<EntryFigures, Difference> {
    let mut figures = EntryFigures::default();
    for _ in 0..BATCH {
        let bytes = any_bytes(random);
        let header = Header {
            kind: random.pick(&TOLD_KINDS),
            n: random.wide_number(),
            votes: random.wide_number(),
        };
        let narrow = any_header(random, Form::Narrow);
        let wide = any_header(random, Form::Wide);
        let before = random.pick(&[None, Some(narrow), Some(wide), Some(header)]);
        compare_read(&bytes, before, &mut figures.reader)?;
        let numbers = [random.wide_number(), random.wide_number()];
        let record = [random.below(14), numbers[0], numbers[1]];
        let (length, place) = (random.place(15), random.number());
        compare_write(length, place, record, &mut figures.writer)?;
    }
    Ok(figures)
}

/// Bytes for the reader; one in four begins as a wide header does.
fn any_bytes(random: &mut Random) -> Vec<u8> {
    let length = random.place(8);
    let mut bytes: Vec<u8> = (0..length).map(|_| random.small_byte()).collect();
    if length > 1 && random.one_in(4) {
        bytes[0] = 11;
        bytes[1] = random.pick(&WIDE_N);
    }
    bytes
}

/// All 64 combinations of a log's first and last record and the record of the call.
fn compare_logs(figures: &mut EntryFigures) -> Result<(), Difference> {
    for all in 0..64 {
        let numbers = [all / 16, all / 4 % 4, all % 4];
        let [first, last, record] = numbers;
        let log = Log { first, last };
        let (proved, second) = (
            proved::log_once_entry(numbers),
            second::log_once_entry(log, record),
        );
        let number = agreed_log("LogOnce", numbers, proved, second)?;
        figures.log_once.note(number);
        let (proved, second) = (proved::log_entry(numbers), second::log_entry(log, record));
        let number = agreed_log("Log", numbers, proved, second)?;
        figures.log.note(number);
    }
    Ok(())
}

/// The refusal's number that both sides answer. A refusal leaves the log as it was given and answers
/// no record, not written.
fn agreed_log(
    name: &str,
    numbers: [u32; 3],
    proved: u32,
    second: Result<Performed, u32>,
) -> Result<u32, Difference> {
    let [first, last, record] = numbers;
    let expected = match second {
        Ok(Performed { log, answer, wrote }) => {
            [0, log.first, log.last, answer + WROTE * u32::from(wrote)]
        }
        Err(number) => [number, first, last, 0],
    };
    if proved == packed_bytes(expected) {
        return Ok(expected[0]);
    }
    let words = |[number, first, last, answer]: [u32; 4]| {
        let (record, wrote) = (answer % WROTE, answer / WROTE);
        format!("number {number}, log {first} {last}, answer {record}, wrote {wrote}")
    };
    Err(Difference {
        input: format!("{name} of record {record} on log {first} {last}"),
        proved: words(proved.to_le_bytes().map(u32::from)),
        second: words(expected),
    })
}
