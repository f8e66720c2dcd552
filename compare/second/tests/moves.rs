//! Runs in progress: the move of a narrow tail, the run from a wide tail and its listing, and what a
//! move in the middle of a run leaves as it would have been.

mod common;

use common::{
    bytes, bytes_of, fresh, full, header_bytes, headers, narrow, refusal, single_steps, steps_from,
    wide, wide_headers, Numbers,
};
use second::{
    listing, listing_from, move_tail, run, run_from, single_step, Form, Header, ParticipantFields,
    Record, Tail,
};

const NARROW: usize = 59;
const WIDE: usize = 320;
/// Longer than any report.
const ROOM: usize = 34_000;
const MOST_CALLS: u16 = 54_000;
/// The places of the first count in both tails.
const NARROW_COUNTS: usize = 41;
const WIDE_COUNTS: usize = 254;

/// The report of an accepted schedule.
fn report_of(schedule: &[u8]) -> Vec<u8> {
    let mut report = vec![0; ROOM];
    let length = run(schedule, &mut report).expect("accepted");
    report.truncate(length);
    report
}

/// The report of accepted steps from an accepted tail.
fn report_from(tail: &[u8], steps: &[u8]) -> Vec<u8> {
    let mut report = vec![0; ROOM];
    let length = run_from(tail, steps, &mut report).expect("accepted");
    report.truncate(length);
    report
}

/// The wide tail of an accepted narrow one.
fn moved(tail: &[u8]) -> Vec<u8> {
    let mut wide = vec![0; WIDE];
    assert_eq!(move_tail(tail, &mut wide), Ok(WIDE));
    wide
}

/// The refusal's number of a move, or 0. No buffer changes it, and it leaves the buffer alone.
fn move_number(tail: &[u8]) -> u32 {
    let mut lent = [0xEE; WIDE];
    let outcome = move_tail(tail, &mut lent);
    let Err(refused) = outcome else {
        assert_eq!(move_tail(tail, &mut lent[..WIDE - 1]), refusal(6, WIDE));
        return 0;
    };
    assert_eq!(refused.value, 0);
    assert_eq!(lent, [0xEE; WIDE]);
    assert_eq!(move_tail(tail, &mut []), outcome);
    refused.number
}

/// The refusal's number of a run without steps from this tail, or 0. Neither a buffer nor steps
/// change it, and it leaves the buffer alone.
fn start_number(tail: &[u8]) -> u32 {
    let mut lent = [0xEE; WIDE];
    let outcome = run_from(tail, &[], &mut lent);
    let Err(refused) = outcome else {
        assert_eq!(lent, tail);
        return 0;
    };
    assert_eq!(refused.value, 0);
    assert_eq!(lent, [0xEE; WIDE]);
    assert_eq!(run_from(tail, &[0xFF], &mut []), outcome);
    let line = format!("refused {} at 0\n", refused.number);
    assert_eq!(listing_from(tail, &[0xFF]), line);
    refused.number
}

/// A state of eight participants in which no two masks, and no two counts, are the same.
fn varied() -> Tail {
    let mut tail = Tail::fresh(narrow(8, 0xB7));
    (tail.state, tail.heard) = (2, 0x7F);
    tail.messages = [0x01, 0x82, 0x44, 0xFF, 0x30];
    let states = [
        (4, 0xFC, 1, 1),
        (4, 0x00, 1, 2),
        (9, 0x00, 0, 0),
        (7, 0x00, 1, 3),
        (8, 0x00, 2, 2),
        (0, 0x00, 2, 2),
        (5, 0x00, 1, 1),
        (4, 0x55, 1, 3),
    ];
    for (fields, (state, heard, first, last)) in tail.participants.iter_mut().zip(states) {
        *fields = ParticipantFields {
            state,
            heard,
            first,
            last,
        };
    }
    tail.calls[..9].copy_from_slice(&[1, 256, 513, 10_922, 0, 53_999, 255, 32_768, MOST_CALLS]);
    tail
}

#[test]
fn a_moved_tail_byte_by_byte() {
    let given = bytes(
        "08 B7 02 7F 01 82 44 FF 30
         04 FC 01 01  04 00 01 02  09 00 00 00  07 00 01 03
         08 00 02 02  00 00 02 02  05 00 01 01  04 55 01 03
         01 00  00 01  01 02  AA 2A  00 00  EF D2  FF 00  00 80  F0 D2",
    );
    assert_eq!(varied().narrow_bytes()[..], given[..]);
    let (fields, counts) = ("00 ".repeat(24 * 7), "00 ".repeat(24 * 2));
    let expected = bytes(&format!(
        "08  B7 00 00 00  02  7F 00 00 00
         01 00 00 00  82 00 00 00  44 00 00 00  FF 00 00 00  30 00 00 00
         04 FC 00 00 00 01 01  04 00 00 00 00 01 02  09 00 00 00 00 00 00
         07 00 00 00 00 01 03  08 00 00 00 00 02 02  00 00 00 00 00 02 02
         05 00 00 00 00 01 01  04 55 00 00 00 01 03  {fields}
         01 00  00 01  01 02  AA 2A  00 00  EF D2  FF 00  00 80  F0 D2  {counts}"
    ));
    let mut lent = [0xEE; WIDE + 9];
    assert_eq!(move_tail(&given, &mut lent), Ok(WIDE));
    assert_eq!(lent[..WIDE], expected[..]);
    assert_eq!(lent[WIDE..], [0xEE; 9]);
}

#[test]
fn buffers_of_a_move() {
    let tail = varied().narrow_bytes();
    for length in 0..WIDE {
        let mut lent = vec![0xEE; length];
        assert_eq!(move_tail(&tail, &mut lent), refusal(6, WIDE));
        assert_eq!(lent, vec![0xEE; length]);
    }
}

#[test]
fn buffers_of_a_run_from_a_tail() {
    let tail = varied().wide_bytes();
    let steps = bytes("02 08 00 06 07 07");
    for length in 0..WIDE + 3 {
        let mut lent = vec![0xEE; length];
        assert_eq!(run_from(&tail, &steps, &mut lent), refusal(6, WIDE + 3));
        assert_eq!(lent, vec![0xEE; length]);
    }
    let mut lent = [0xEE; WIDE + 8];
    assert_eq!(run_from(&tail, &steps, &mut lent), Ok(WIDE + 3));
    assert_eq!(lent[..3], [0, 1, 1]);
    assert_eq!(lent[WIDE + 3..], [0xEE; 5]);
}

#[test]
fn an_empty_rest_gives_the_tail_back() {
    for header in headers() {
        let tail = Tail::fresh(header);
        let wide = moved(&tail.narrow_bytes());
        assert_eq!(wide, tail.wide_bytes());
        assert_eq!(report_from(&wide, &[]), wide);
    }
    for header in wide_headers() {
        assert_eq!(start_number(&Tail::fresh(header).wide_bytes()), 0);
    }
    assert_eq!(start_number(&varied().wide_bytes()), 0);
}

#[test]
fn tails_of_another_length() {
    // Bytes in range, then bytes out of range.
    for filling in [0x00, 0xFF] {
        let mut bytes = [filling; 400];
        if filling == 0 {
            bytes[0] = 1;
        }
        for length in [0, 1, 58, 60, 319, 320, 321, 400] {
            assert_eq!(move_number(&bytes[..length]), 10, "{length}");
        }
        for length in [0, 1, 58, 59, 60, 319, 321, 400] {
            assert_eq!(start_number(&bytes[..length]), 10, "{length}");
        }
        let in_length = if filling == 0 { 0 } else { 5 };
        assert_eq!(move_number(&bytes[..NARROW]), in_length);
        assert_eq!(start_number(&bytes[..WIDE]), in_length);
    }
}

#[test]
fn refusals_of_a_move_in_order() {
    let mut tail = varied().narrow_bytes();
    let mut lent = [0xEE; WIDE - 1];
    assert_eq!(move_tail(&tail, &mut lent), refusal(6, WIDE));
    tail[0] = 9;
    assert_eq!(move_tail(&tail, &mut lent), refusal(5, 0));
    assert_eq!(move_tail(&tail[1..], &mut lent), refusal(10, 0));
    assert_eq!(lent, [0xEE; WIDE - 1]);
}

#[test]
fn refusals_of_a_run_from_a_tail_in_order() {
    let sound = varied().wide_bytes();
    let mut damaged = sound;
    damaged[0] = 33;
    let (long, unknown) = (vec![0xFF; 32_769], vec![0xFF; 32_768]);
    let cases: [(&[u8], &[u8], u32, usize); 9] = [
        (&damaged[1..], &long, 1, 0),
        (&damaged, &long, 1, 0),
        (&sound, &long, 1, 0),
        (&damaged[1..], &unknown, 10, 0),
        (&sound[1..], &unknown, 10, 0),
        (&sound[1..], &[], 10, 0),
        (&damaged, &unknown, 5, 0),
        (&sound, &unknown, 2, 0),
        (&sound, &[], 6, WIDE),
    ];
    for (tail, steps, number, value) in cases {
        let mut lent = [0xEE; WIDE - 1];
        assert_eq!(run_from(tail, steps, &mut lent), refusal(number, value));
        assert_eq!(lent, [0xEE; WIDE - 1]);
        if number != 6 {
            let line = format!("refused {number} at {value}\n");
            assert_eq!(listing_from(tail, steps), line);
        }
    }
}

#[test]
fn records_of_a_rest_from_the_left() {
    let tail = fresh(9, 0x1FF).wide_bytes();
    let cases = [
        ("00", 2, 0),
        ("0C 01 01", 2, 0),
        ("02 FF", 2, 1),
        ("06 01", 3, 0),
        ("02 08", 3, 1),
        ("01", 3, 0),
        ("01 09", 3, 0),
        ("01 08 FF", 4, 0),
        ("01 09 FF", 4, 0),
        ("01 00 00 02", 4, 0),
        ("0B 09 FF 01 00", 3, 0),
        ("0B 09 FF 01 00 00", 4, 0),
        ("0B 21 FF 01 00 00", 4, 0),
        ("02 01 01 01", 4, 1),
        ("02 08 00 0B 09 FF 01 00 00 02", 4, 3),
        ("02 08 00 0B 09 FF 01 00", 3, 3),
        ("03 06 01", 5, 0),
        ("02 03 01 0A", 5, 1),
        ("02 06 00 00", 5, 1),
        ("02 06 0A 01", 5, 1),
        ("02 08 09 09 0A 0B", 5, 3),
        ("02 08 0A 0C", 5, 1),
    ];
    for (text, number, place) in cases {
        let steps = bytes(text);
        let mut lent = [0xEE; 400];
        let expected = refusal(number, place);
        assert_eq!(run_from(&tail, &steps, &mut lent), expected, "{text}");
        assert_eq!(run_from(&tail, &steps, &mut []), expected, "{text}");
        assert_eq!(lent, [0xEE; 400]);
        let line = format!("refused {number} at {place}\n");
        assert_eq!(listing_from(&tail, &steps), line);
    }
}

#[test]
fn numbers_go_up_to_the_n_of_the_tail() {
    for n in 1..=32 {
        let tail = fresh(n, 0).wide_bytes();
        for number in [n, n + 1] {
            let expected = if number == n {
                Ok(WIDE + 1)
            } else {
                refusal(5, 0)
            };
            let number = number as u8;
            for step in [[0x03, 1, number], [0x06, 0, number], [0x07, number, 1]] {
                assert_eq!(run_from(&tail, &step, &mut [0; 400]), expected);
            }
            assert_eq!(run_from(&tail, &[0x09, number], &mut [0; 400]), expected);
        }
    }
}

#[test]
fn counts_of_calls() {
    let (narrow, wide) = (fresh(8, 0).narrow_bytes(), fresh(32, 0).wide_bytes());
    for (count, number) in [
        (53_999, 0),
        (MOST_CALLS, 0),
        (54_001, 5),
        (65_534, 5),
        (65_535, 5),
    ] {
        for party in 0..=8 {
            let mut tail = narrow;
            tail[NARROW_COUNTS + 2 * party..][..2].copy_from_slice(&count.to_le_bytes());
            assert_eq!(move_number(&tail), number, "{party} {count}");
        }
        for party in 0..=32 {
            let mut tail = wide;
            tail[WIDE_COUNTS + 2 * party..][..2].copy_from_slice(&count.to_le_bytes());
            assert_eq!(start_number(&tail), number, "{party} {count}");
        }
    }
    // The single step keeps its own limit.
    let mut tail = fresh(1, 0);
    tail.calls[1] = 65_534;
    assert!(single_step(&tail, 0x02, 0, 0).is_ok());
}

/// Checks that this change of a state of n with all fields 0 is out of range, or not, both for a
/// start and, where the tail has a narrow form, for a move.
fn assert_range(n: u32, in_range: bool, change: impl Fn(&mut Tail)) {
    let mut tail = fresh(n, 0);
    change(&mut tail);
    let number = if in_range { 0 } else { 5 };
    assert_eq!(start_number(&tail.wide_bytes()), number, "{tail:?}");
    let bytes = tail.narrow_bytes();
    if n <= 8 && Tail::from_bytes(Form::Narrow, &bytes) == tail {
        assert_eq!(move_number(&bytes), number, "{tail:?}");
    }
}

#[test]
fn n_in_range() {
    for n in 0..=255 {
        let (mut narrow, mut wide) = ([0; NARROW], [0; WIDE]);
        (narrow[0], wide[0]) = (n, n);
        let number = |most| if (1..=most).contains(&n) { 0 } else { 5 };
        assert_eq!(move_number(&narrow), number(8), "{n}");
        assert_eq!(start_number(&wide), number(32), "{n}");
    }
}

#[test]
fn votes_and_messages_in_range() {
    for n in 1..=32 {
        for participant in 1..=32 {
            let bit = 1 << (participant - 1);
            let in_range = participant <= n;
            assert_range(n, in_range, |tail| tail.votes = bit);
            for message in 0..5 {
                assert_range(n, in_range, |tail| tail.messages[message] = bit);
            }
        }
        assert_range(n, true, |tail| tail.votes = full(n));
        assert_range(n, true, |tail| tail.messages = [full(n); 5]);
    }
}

/// Every number of the first with every one of the second.
fn pairs(first: impl Iterator<Item = u32>, second: &[u32]) -> Vec<(u32, u32)> {
    first
        .flat_map(|one| second.iter().map(move |&other| (one, other)))
        .collect()
}

#[test]
fn coordinators_in_range() {
    for n in [1, 2, 7, 8, 9, 31, 32] {
        let (full, beyond) = (full(n), full(n).wrapping_add(1));
        let masks = [0, 1, full >> 1, full - 1, full, beyond, u32::MAX];
        for (state, heard) in pairs((0..=8).chain([255]), &masks) {
            let in_range = match state {
                1 | 2 => heard & !full == 0 && heard != full,
                _ => state <= 6 && heard == 0,
            };
            let change = |tail: &mut Tail| (tail.state, tail.heard) = (state, heard);
            assert_range(n, in_range, change);
        }
    }
}

#[test]
fn participants_in_range() {
    for n in [1, 2, 3, 7, 8, 9, 31, 32] {
        (1..=n).for_each(|own| assert_range_of_participant(n, own));
    }
}

/// State and heard mask of one participant of n.
fn assert_range_of_participant(n: u32, own: u32) {
    let own_bit = 1 << (own - 1);
    let others = full(n) & !own_bit;
    let but_one = others & others.wrapping_sub(1);
    let beyond = full(n).wrapping_add(1);
    let masks = [0, 1, own_bit, but_one, others, full(n), beyond, u32::MAX];
    for (state, heard) in pairs((0..=10).chain([255]), &masks) {
        let in_range = match state {
            4 => heard & !others == 0 && heard != others,
            _ => state <= 9 && heard == 0,
        };
        assert_range(n, in_range, |tail| {
            let fields = &mut tail.participants[own as usize - 1];
            (fields.state, fields.heard) = (state, heard);
        });
    }
}

#[test]
fn pairs_of_records() {
    let allowed = [(0, 0), (1, 1), (1, 2), (1, 3), (2, 2)];
    for (first, last) in pairs(0..5, &[0, 1, 2, 3, 4, 255]) {
        let in_range = allowed.contains(&(first, last));
        for (n, log) in [(1, 1), (8, 1), (8, 5), (8, 8), (32, 1), (32, 9), (32, 32)] {
            assert_range(n, in_range, |tail| {
                let fields = &mut tail.participants[log - 1];
                (fields.first, fields.last) = (first, last);
            });
        }
    }
}

/// Every byte of both tails that lies beyond n.
#[test]
fn zeros_beyond_n() {
    for n in 1..=32 {
        let wide = fresh(n, 0).wide_bytes();
        let participants = 30 + 7 * n as usize..WIDE_COUNTS;
        let counts = WIDE_COUNTS + 2 * (n as usize + 1)..WIDE;
        for place in participants.chain(counts) {
            let mut tail = wide;
            tail[place] = 1;
            assert_eq!(start_number(&tail), 5, "{n} {place}");
        }
    }
    for n in 1..=8 {
        let narrow = fresh(n, 0).narrow_bytes();
        let participants = 9 + 4 * n as usize..NARROW_COUNTS;
        let counts = NARROW_COUNTS + 2 * (n as usize + 1)..NARROW;
        for place in participants.chain(counts) {
            let mut tail = narrow;
            tail[place] = 1;
            assert_eq!(move_number(&tail), 5, "{n} {place}");
        }
    }
}

#[test]
fn a_listing_goes_on_with_the_counts_of_the_tail() {
    // P1 after its fourth step.
    let first = bytes("01 02 03 02 03 01 01 06 01 01 08 01");
    let tail = moved(&report_of(&first)[4..]);
    let rest = bytes("06 01 02 06 01 01 03 01 02 06 02 02");
    let expected = "1 abort closed\n2 moved\n3 moved\n4 abort\ncalls 0 3 1\nlogs ya aa\n";
    assert_eq!(listing_from(&tail, &rest), expected);
    assert_eq!(listing_from(&tail, &[]), "calls 0 1 0\nlogs yy --\n");
    let varied = varied().wide_bytes();
    let calls = "calls 1 256 513 10922 0 53999 255 32768 54000";
    let logs = "logs yy ya -- yc aa aa yy yc";
    let expected = format!("{calls}\n{logs}\n");
    assert_eq!(listing_from(&varied, &[]), expected);
}

/// The lines of the rest are those of the whole schedule from there on, counted from 1.
#[test]
fn listings_of_every_cut() {
    let mut numbers = Numbers(11);
    for header in [narrow(1, 1), narrow(3, 7), narrow(8, 0xFF)] {
        let steps = steps_from(Tail::fresh(header), 40, &mut numbers);
        let whole = listing(&[header_bytes(header), bytes_of(&steps)].concat());
        for cut in 0..=steps.len() {
            let tail = tail_after(header, &steps[..cut]);
            let text = listing_from(&tail, &bytes_of(&steps[cut..]));
            assert_eq!(text, lines_after(&whole, cut));
        }
    }
}

/// A listing without its first lines, as many as that; the number of each step is that much lower.
fn lines_after(listing: &str, gone: usize) -> String {
    let later = listing.lines().enumerate().skip(gone);
    let line = |(at, line): (usize, &str)| match line.strip_prefix(&format!("{} ", at + 1)) {
        Some(words) => format!("{} {words}\n", at + 1 - gone),
        None => format!("{line}\n"),
    };
    later.map(line).collect()
}

/// The wide tail after these steps under this header: moved if the run was narrow.
fn tail_after(header: Header, steps: &[Record]) -> Vec<u8> {
    let report = report_of(&[header_bytes(header), bytes_of(steps)].concat());
    let tail = &report[steps.len()..];
    if header.kind == 0x0B {
        return tail.to_vec();
    }
    moved(tail)
}

/// The step bytes and the last wide tail of a run in parts that end at these cuts: the first part
/// under this header, each further part from the tail of the one before.
fn report_in_parts(header: Header, steps: &[Record], cuts: &[usize]) -> Vec<u8> {
    let first = &steps[..cuts[0]];
    let mut report = report_of(&[header_bytes(header), bytes_of(first)].concat());
    report.truncate(first.len());
    let mut tail = tail_after(header, first);
    for (at, &start) in cuts.iter().enumerate() {
        let end = cuts.get(at + 1).copied().unwrap_or(steps.len());
        let part = report_from(&tail, &bytes_of(&steps[start..end]));
        let (bytes, after) = part.split_at(end - start);
        report.extend(bytes);
        tail = after.to_vec();
    }
    report.extend(tail);
    report
}

/// The report of all steps under the wide header of the same n and votes.
fn report_under_wide(header: Header, steps: &[Record]) -> Vec<u8> {
    let under = wide(header.n, header.votes);
    report_of(&[header_bytes(under), bytes_of(steps)].concat())
}

#[test]
fn every_cut_of_a_narrow_schedule() {
    let mut numbers = Numbers(7);
    for header in headers() {
        for count in [0, 1, 5, 25] {
            let steps = steps_from(Tail::fresh(header), count, &mut numbers);
            let whole = report_under_wide(header, &steps);
            for cut in 0..=count {
                assert_eq!(report_in_parts(header, &steps, &[cut]), whole);
            }
        }
    }
}

#[test]
fn every_cut_of_a_wide_schedule() {
    let mut numbers = Numbers(8);
    for header in wide_headers() {
        let steps = steps_from(Tail::fresh(header), 12, &mut numbers);
        let whole = report_under_wide(header, &steps);
        for cut in 0..=12 {
            assert_eq!(report_in_parts(header, &steps, &[cut]), whole);
        }
    }
}

#[test]
fn several_cuts() {
    let mut numbers = Numbers(9);
    let narrow = headers().into_iter().filter(|header| header.n > 2);
    for header in narrow.chain(wide_headers()).step_by(3) {
        let steps = steps_from(Tail::fresh(header), 30, &mut numbers);
        let whole = report_under_wide(header, &steps);
        for count in [2, 3, 6] {
            let mut cuts: Vec<usize> = (0..count).map(|_| numbers.below(31)).collect();
            cuts.sort_unstable();
            assert_eq!(report_in_parts(header, &steps, &cuts), whole);
        }
        let every: Vec<usize> = (0..=30).collect();
        assert_eq!(report_in_parts(header, &steps, &every), whole);
    }
}

/// Terminations of all parties, cut where some of the others are heard.
#[test]
fn cuts_within_terminations() {
    for n in [2, 3, 8] {
        let header = narrow(n, full(n));
        let mut tail = Tail::fresh(header);
        let mut steps = Vec::new();
        let mut take = |kind, first, second| {
            if let Ok((after, _)) = single_step(&tail, kind, first, second) {
                tail = after;
            }
            steps.push(Record {
                kind,
                first,
                second,
            });
        };
        take(0x02, 0, 0);
        (1..=n).for_each(|p| take(0x03, 1, p));
        (1..=n).for_each(|p| take(0x06, p, p));
        (0..=n).for_each(|p| take(0x08, p, 0));
        (1..=n).for_each(|log| (0..=n).for_each(|party| take(0x06, party, log)));
        (1..=n).for_each(|p| take(0x06, p, p));
        let whole = report_under_wide(header, &steps);
        assert_eq!((tail.state, tail.participants[0].state), (3, 7));
        for cut in 0..=steps.len() {
            assert_eq!(report_in_parts(header, &steps, &[cut]), whole);
        }
    }
}

/// A tail that no run gave: each step does what the single step does.
#[test]
fn steps_from_a_tail_that_no_run_gave() {
    let mut numbers = Numbers(10);
    let moved = moved(&varied().narrow_bytes());
    for _ in 0..200 {
        let steps = steps_from(varied(), 60, &mut numbers);
        let (mut expected, after) = single_steps(varied(), &steps);
        expected.extend(after.wide_bytes());
        assert_eq!(report_from(&moved, &bytes_of(&steps)), expected);
    }
}

#[test]
fn limit_of_a_rest() {
    let tail = fresh(1, 0).wide_bytes();
    let mut report = vec![0xEE; ROOM];
    let starts = [0x02; 32_769];
    assert_eq!(run_from(&tail, &starts, &mut report), refusal(1, 0));
    assert_eq!(report, [0xEE; ROOM]);
    let written = run_from(&tail, &starts[..32_768], &mut report);
    assert_eq!(written, Ok(32_768 + WIDE));
    assert_eq!(report[..3], [1, 0, 0]);
}

/// A longest rest of calls whose answers are lost, all of them due.
#[test]
fn the_greatest_count_of_calls() {
    let mut tail = fresh(1, 1);
    tail.participants[0].state = 1;
    tail.calls[1] = MOST_CALLS;
    let mut rest = [0x07, 1, 1].repeat(10_922);
    rest.extend([0x02, 0x02]);
    assert_eq!(rest.len(), 32_768);
    let report = report_from(&tail.wide_bytes(), &rest);
    assert_eq!(report[..10_922], [1; 10_922]);
    let after = Tail::from_bytes(Form::Wide, &report[10_924..]);
    assert_eq!(after.calls[1], 64_922);
    let end = &report[10_924..];
    assert_eq!(start_number(end), 5);
    assert!(listing_from(&tail.wide_bytes(), &rest).contains("\ncalls 0 64922\n"));
}

/// The wide header takes three bytes more, so a narrow schedule of 32,765 bytes is the longest whose
/// whole list fits. The parts of a longer one still do.
#[test]
fn cuts_of_longest_schedules() {
    let mut numbers = Numbers(12);
    let header = narrow(3, 7);
    let steps = steps_from(Tail::fresh(header), 14_000, &mut numbers);
    let mut fitting = Vec::new();
    let mut length = 6;
    for step in steps {
        length += bytes_of(&[step]).len();
        if length > 32_768 {
            break;
        }
        fitting.push(step);
    }
    let whole = report_under_wide(header, &fitting);
    for cut in [0, 1, 5_000, fitting.len() - 1, fitting.len()] {
        assert_eq!(report_in_parts(header, &fitting, &[cut]), whole);
    }
    let start = Record {
        kind: 0x02,
        first: 0,
        second: 0,
    };
    fitting.extend([start; 100]);
    let tail = report_in_parts(header, &fitting, &[6_000, 9_000]);
    let [before, after] = [&whole, &tail].map(|report| &report[report.len() - WIDE..]);
    assert_eq!(before, after);
}
