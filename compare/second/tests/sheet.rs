//! The sheets of every short exercise, their refusals and text, and program `second` with the word
//! `sheet`.

mod common;

use common::{bytes, bytes_of, full, header_bytes, narrow, output, refusal, report, steps};
use second::{read_record, run, sheet_text, write_sheet, Header};

const MOST_N: u32 = 2;
const MOST_K: u32 = 3;

/// More bytes than any sheet has.
const ENOUGH: usize = 4_000;

/// Numbers that no bound takes; of some, the low bytes are numbers that it does.
const ABSURD: [u32; 8] = [32, 33, 255, 256, 257, 65_537, 1 << 31, u32::MAX];

/// For n, the number of schedules and the length in bytes for k from 0 to 3, which are the same for
/// every vote mask.
const FIGURES: [(u32, [(usize, usize); 4]); 2] = [
    (1, [(1, 3), (4, 19), (18, 122), (94, 852)]),
    (2, [(1, 3), (6, 29), (41, 281), (334, 3_039)]),
];

/// For n = 1, every due list of two steps, and the steps due after it.
const BY_HAND: [(&str, &[&str]); 18] = [
    (
        "02 03 01 01",
        &["06 01 01", "07 01 01", "08 00", "09 00", "09 01"],
    ),
    (
        "02 04 01 01",
        &[
            "03 01 01", "04 01 01", "05 01 01", "06 01 01", "07 01 01", "08 00", "09 00", "09 01",
        ],
    ),
    ("02 05 01 01", &["08 00", "08 01", "09 00", "09 01"]),
    (
        "02 08 00",
        &[
            "03 01 01", "04 01 01", "05 01 01", "06 00 01", "07 00 01", "08 00", "08 01", "09 00",
            "09 01",
        ],
    ),
    (
        "02 08 01",
        &[
            "03 01 01", "04 01 01", "05 01 01", "06 01 01", "07 01 01", "08 00", "09 00", "09 01",
        ],
    ),
    (
        "02 09 00",
        &[
            "03 01 01", "04 01 01", "05 01 01", "08 01", "09 01", "0A 00",
        ],
    ),
    (
        "02 09 01",
        &[
            "03 01 01", "04 01 01", "05 01 01", "08 00", "09 00", "0A 01",
        ],
    ),
    (
        "08 01 02",
        &[
            "03 01 01", "04 01 01", "05 01 01", "06 01 01", "07 01 01", "08 00", "09 00", "09 01",
        ],
    ),
    (
        "08 01 06 01 01",
        &["02", "03 03 01", "04 03 01", "05 03 01", "09 00", "09 01"],
    ),
    (
        "08 01 07 01 01",
        &["02", "06 01 01", "07 01 01", "09 00", "09 01"],
    ),
    ("08 01 09 00", &["06 01 01", "07 01 01", "09 01", "0A 00"]),
    ("08 01 09 01", &["02", "09 00", "0A 01"]),
    ("09 00 08 01", &["06 01 01", "07 01 01", "09 01", "0A 00"]),
    ("09 00 09 01", &["0A 00", "0A 01"]),
    ("09 00 0A 00", &["08 01", "09 00", "09 01"]),
    (
        "09 01 02",
        &[
            "03 01 01", "04 01 01", "05 01 01", "08 00", "09 00", "0A 01",
        ],
    ),
    ("09 01 09 00", &["0A 00", "0A 01"]),
    (
        "09 01 0A 01",
        &["02", "06 01 01", "07 01 01", "09 00", "09 01"],
    ),
];

fn is_in_bounds(n: u32, votes: u32, k: u32) -> bool {
    (1..=MOST_N).contains(&n) && votes <= full(n) && k <= MOST_K
}

/// Every n, vote mask and k of a sheet.
fn all_in_bounds() -> Vec<(u32, u32, u32)> {
    let mut all = Vec::new();
    for n in 1..=MOST_N {
        for votes in 0..=full(n) {
            all.extend((0..=MOST_K).map(|k| (n, votes, k)));
        }
    }
    all
}

/// The number of schedules and the length in bytes that a sheet must have.
fn figures(n: u32, k: u32) -> (usize, usize) {
    let (_, figures) = FIGURES
        .iter()
        .find(|(of, _)| *of == n)
        .expect("n of 1 or 2");
    figures[k as usize]
}

fn sheet(n: u32, votes: u32, k: u32) -> Vec<u8> {
    let mut sheet = vec![0; ENOUGH];
    let length = write_sheet(n, votes, k, &mut sheet).expect("accepted");
    sheet.truncate(length);
    sheet
}

/// The schedules of a sheet: as often as there are bytes left, a header and k steps.
fn schedules(sheet: &[u8], header: Header, k: u32) -> Vec<Vec<u8>> {
    let mut rest = sheet;
    let mut schedules = Vec::new();
    while !rest.is_empty() {
        let (first, mut length) = read_record(rest, None).expect("a header");
        assert_eq!((first.kind, first.first), (header.kind, header.n));
        assert_eq!(first.second, header.votes);
        for _ in 0..k {
            let (_, step) = read_record(&rest[length..], Some(header)).expect("a step");
            length += step;
        }
        let (schedule, after) = rest.split_at(length);
        schedules.push(schedule.to_vec());
        rest = after;
    }
    schedules
}

/// Every string of bytes that the reader takes as one whole step under this header. Of longer ones
/// than three bytes there are only headers, which it refuses.
fn step_strings(header: Header) -> Vec<Vec<u8>> {
    let mut found = Vec::new();
    let mut cut_short: Vec<Vec<u8>> = vec![Vec::new()];
    for length in 1..=3 {
        let mut longer = Vec::new();
        for string in &cut_short {
            for last in 0..=0xFF {
                let string = [&string[..], &[last]].concat();
                match read_record(&string, Some(header)) {
                    Ok((_, taken)) => {
                        assert_eq!(taken, length);
                        found.push(string);
                    }
                    Err(refusal) if refusal.number == 3 => longer.push(string),
                    Err(_) => (),
                }
            }
        }
        cut_short = longer;
    }
    assert!(cut_short.iter().all(|string| string[0] == 0x0B));
    found
}

/// Every list of k of these steps after the header, whether or not they are due.
fn all_lists(header: Header, k: u32, steps: &[Vec<u8>]) -> Vec<Vec<u8>> {
    let mut lists = vec![header_bytes(header)];
    for _ in 0..k {
        let with_each = |list: &Vec<u8>| {
            let with = |step: &Vec<u8>| [&list[..], step].concat();
            steps.iter().map(with).collect::<Vec<_>>()
        };
        lists = lists.iter().flat_map(with_each).collect();
    }
    lists
}

/// Whether the marker takes the schedule, and reports none of its k steps as idle.
fn is_due_throughout(schedule: &[u8], k: u32) -> bool {
    let mut report = [0; 3 + 59];
    let length = run(schedule, &mut report).expect("accepted");
    assert_eq!(length, k as usize + 59);
    report[..k as usize].iter().all(|&byte| byte != 0)
}

/// The schedules of a sheet by its definition: of all lists those that are due throughout, in
/// ascending order of their bytes, each once.
fn by_definition(header: Header, k: u32, steps: &[Vec<u8>]) -> Vec<Vec<u8>> {
    let mut lists = all_lists(header, k, steps);
    lists.retain(|list| is_due_throughout(list, k));
    lists.sort();
    lists.dedup();
    lists
}

/// The text of a sheet with these schedules.
fn text(schedules: &[Vec<u8>]) -> String {
    let mut text = String::new();
    for schedule in schedules {
        let digits: Vec<String> = schedule.iter().map(|byte| format!("{byte:02x}")).collect();
        text += &(digits.join(" ") + "\n");
    }
    text
}

/// A buffer whose bytes differ from their neighbours.
fn pattern(length: usize) -> Vec<u8> {
    (0..length).map(|at| (at * 101 + 0x5A) as u8).collect()
}

/// Writes into a buffer of this length, and shows that it is untouched by a refusal, and by success
/// beyond the sheet.
fn write_into(n: u32, votes: u32, k: u32, length: usize) -> Result<usize, second::Refusal> {
    let mut buffer = pattern(length);
    let answer = write_sheet(n, votes, k, &mut buffer);
    let written = answer.unwrap_or(0);
    assert!(buffer[written..] == pattern(length)[written..]);
    if answer.is_ok() {
        assert!(buffer[..written] == sheet(n, votes, k));
    }
    answer
}

/// Every buffer length of these gives the sheet or the refusal that it must.
fn assert_buffers(n: u32, votes: u32, k: u32, lengths: impl Iterator<Item = usize>) {
    let (_, needed) = figures(n, k);
    for length in lengths {
        let expected = if length < needed {
            refusal(6, needed)
        } else {
            Ok(needed)
        };
        let answer = write_into(n, votes, k, length);
        assert_eq!(answer, expected, "{n} {votes} {k} {length}");
    }
}

#[test]
fn the_worked_example() {
    let one_step = "01 01 01 02  01 01 01 08 01  01 01 01 09 00  01 01 01 09 01";
    assert_eq!(sheet(1, 1, 1), bytes(one_step));
    let lines = "01 01 01 02\n01 01 01 08 01\n01 01 01 09 00\n01 01 01 09 01\n";
    assert_eq!(sheet_text(1, 1, 1), lines);
    assert_eq!(sheet(1, 1, 0), bytes("01 01 01"));
    assert_eq!(sheet_text(1, 1, 0), "01 01 01\n");
}

#[test]
fn one_step_of_two_participants() {
    let lines = "01 02 02 02\n01 02 02 08 01\n01 02 02 08 02\n\
                 01 02 02 09 00\n01 02 02 09 01\n01 02 02 09 02\n";
    assert_eq!(sheet_text(2, 2, 1), lines);
    assert_eq!(sheet(2, 2, 1), bytes(lines));
}

#[test]
fn digits_are_lower_case() {
    assert!(sheet_text(1, 0, 2).ends_with("\n01 01 00 09 01 0a 01\n"));
    for (n, votes, k) in all_in_bounds() {
        let text = sheet_text(n, votes, k);
        assert!(text
            .bytes()
            .all(|byte| b"0123456789abcdef \n".contains(&byte)));
    }
}

#[test]
fn two_and_three_steps_of_one_participant_by_hand() {
    for header in ["01 01 00", "01 01 01"] {
        let mut two = Vec::new();
        let mut three = Vec::new();
        for (before, due) in BY_HAND {
            two.extend(bytes(&format!("{header} {before}")));
            for step in due {
                three.extend(bytes(&format!("{header} {before} {step}")));
            }
        }
        let votes = u32::from(bytes(header)[2]);
        assert_eq!(sheet(1, votes, 2), two);
        assert_eq!(sheet(1, votes, 3), three);
    }
}

#[test]
fn numbers_of_schedules_and_bytes() {
    for (n, votes, k) in all_in_bounds() {
        let sheet = sheet(n, votes, k);
        let schedules = schedules(&sheet, narrow(n, votes), k);
        assert_eq!((schedules.len(), sheet.len()), figures(n, k));
        assert_eq!(sheet_text(n, votes, k).lines().count(), schedules.len());
    }
}

#[test]
fn steps_that_the_reader_takes() {
    for (n, count) in [(1, 26), (2, 52)] {
        for votes in 0..=full(n) {
            let mut found = step_strings(narrow(n, votes));
            found.sort();
            let mut listed: Vec<Vec<u8>> = steps(n).iter().map(|&step| bytes_of(&[step])).collect();
            listed.sort();
            assert_eq!((&found, found.len()), (&listed, count));
        }
    }
    // The only kind with more bytes is a header.
    let wide = bytes("0B 01 01 00 00 00");
    assert_eq!(
        read_record(&wide, Some(narrow(1, 1))).map(|(_, length)| length),
        refusal(4, 0)
    );
}

#[test]
fn every_sheet_by_its_definition() {
    for n in 1..=MOST_N {
        for votes in 0..=full(n) {
            let header = narrow(n, votes);
            let steps = step_strings(header);
            for k in 0..=MOST_K {
                let expected = by_definition(header, k, &steps);
                let sheet = sheet(n, votes, k);
                assert_eq!(schedules(&sheet, header, k), expected, "{n} {votes} {k}");
                assert_eq!(sheet, expected.concat());
                assert_eq!(sheet_text(n, votes, k), text(&expected));
            }
        }
    }
}

#[test]
fn ascending_order_of_bytes() {
    for (n, votes, k) in all_in_bounds() {
        let schedules = schedules(&sheet(n, votes, k), narrow(n, votes), k);
        for pair in schedules.windows(2) {
            assert!(pair[0] < pair[1], "{pair:02X?}");
            // No schedule begins another, so the order doesn't hang on their lengths.
            assert!(!pair[1].starts_with(&pair[0]));
        }
    }
}

#[test]
fn no_step_is_idle() {
    for (n, votes, k) in all_in_bounds() {
        for schedule in schedules(&sheet(n, votes, k), narrow(n, votes), k) {
            let (steps, tail) = report(&schedule);
            assert_eq!(steps.len(), k as usize);
            assert!(steps.iter().all(|&byte| byte != 0), "{schedule:02X?}");
            assert_eq!((tail.n, tail.votes), (n, votes));
        }
    }
}

#[test]
fn schedules_of_one_step_fewer_begin_each() {
    for (n, votes, k) in all_in_bounds() {
        if k == 0 {
            continue;
        }
        let header = narrow(n, votes);
        let fewer = schedules(&sheet(n, votes, k - 1), header, k - 1);
        let begins = |schedule: &Vec<u8>| fewer.iter().any(|fewer| schedule.starts_with(fewer));
        assert!(schedules(&sheet(n, votes, k), header, k).iter().all(begins));
    }
}

/// The same steps are due in states 1 and 2, so that a vote shows only after the participant's own
/// call, which is the third step at the earliest: start, request, call.
#[test]
fn votes_show_in_the_header_alone() {
    for (n, votes, k) in all_in_bounds() {
        let steps_of = |votes| {
            let schedules = schedules(&sheet(n, votes, k), narrow(n, votes), k);
            let steps = schedules.iter().map(|schedule| schedule[3..].to_vec());
            steps.collect::<Vec<_>>()
        };
        assert_eq!(steps_of(votes), steps_of(0));
    }
}

#[test]
fn bounds() {
    let numbers: Vec<u32> = (0..=9).chain(ABSURD).collect();
    for &n in &numbers {
        for &votes in &numbers {
            for &k in &numbers {
                if is_in_bounds(n, votes, k) {
                    assert_eq!(write_into(n, votes, k, ENOUGH), Ok(figures(n, k).1));
                    continue;
                }
                // The bounds come before the buffer, whether or not it is long enough.
                for length in [0, 1, 3, ENOUGH] {
                    assert_eq!(write_into(n, votes, k, length), refusal(5, 0));
                }
                assert_eq!(sheet_text(n, votes, k), "refused 5 at 0\n");
            }
        }
    }
}

#[test]
fn votes_beyond_n() {
    for votes in 0..=0x400 {
        let one = write_into(1, votes, 1, ENOUGH);
        assert_eq!(one, if votes < 2 { Ok(19) } else { refusal(5, 0) });
        let two = write_into(2, votes, 1, ENOUGH);
        assert_eq!(two, if votes < 4 { Ok(29) } else { refusal(5, 0) });
    }
}

#[test]
fn every_buffer_of_the_smaller_sheets() {
    for (n, votes, k) in all_in_bounds() {
        let (_, needed) = figures(n, k);
        if needed < 1_000 {
            assert_buffers(n, votes, k, 0..=needed + 2);
        }
    }
}

#[test]
fn buffers_of_the_largest_sheet() {
    let (_, needed) = figures(2, 3);
    for votes in 0..=full(2) {
        let some = (0..needed).step_by(97);
        assert_buffers(2, votes, 3, some.chain(needed - 12..=needed + 2));
    }
}

#[test]
fn program_with_the_word_sheet() {
    for (n, votes, k) in all_in_bounds() {
        let output = output(&["sheet"], &[n as u8, votes as u8, k as u8]);
        assert!(output.status.success());
        assert_eq!(output.stdout, sheet_text(n, votes, k).as_bytes());
        assert_eq!(output.stderr, b"");
    }
}

#[test]
fn program_on_bytes_missing_or_beyond() {
    let refused = "refused 5 at 0\n";
    let cases = [
        ("", refused),
        ("00", refused),
        ("01", "01 01 00\n"),
        ("02", "01 02 00\n"),
        ("02 03", "01 02 03\n"),
        ("03", refused),
        ("01 02", refused),
        ("01 00 04", refused),
        ("FF FF FF", refused),
        ("01 01 00 FF 02 0A", "01 01 01\n"),
        ("03 01 00 01 01 00", refused),
    ];
    for (input, expected) in cases {
        let output = output(&["sheet"], &bytes(input));
        assert!(output.status.success());
        assert_eq!(output.stdout, expected.as_bytes(), "{input}");
        assert_eq!(output.stderr, b"");
    }
}

#[test]
fn program_with_other_words() {
    for words in [&["sheets"][..], &["sheet", "sheet"], &["sheet", "1"]] {
        let output = output(words, &bytes("01 01 01"));
        assert_eq!(output.status.code(), Some(2));
        assert_eq!(output.stdout, b"");
        assert_eq!(
            output.stderr,
            b"usage: second | second class | second sheet\n"
        );
    }
}
