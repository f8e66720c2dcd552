//! The figures of class files, their refusals and text, and program `second` with the word `class`.

mod common;

use common::{
    bytes, bytes_of, header_bytes, headers, output, refusal, report, steps_from, wide_headers,
    Numbers,
};
use second::{class_figures, class_text, put_class_text, ClassFigures, Refusal, Tail};

/// An abort, reported twice, and 4 calls.
const P1: &str = "01 02 03 02 03 01 01 06 01 01 08 01 06 01 02 06 01 01 03 01 02 06 02 02";
/// A commit and 2 calls.
const P2: &str = "01 01 01 02 03 01 01 06 01 01 08 01 06 01 01";
/// An abort and 1 call.
const P3: &str = "01 02 03 09 01 0A 01 06 01 01";
/// No steps.
const P8: &str = "01 08 FF";
/// One step, which is not due.
const P13: &str = "01 01 01 08 00";
/// A commit, reported by the coordinator and by the participant, and 2 calls.
const WIDE: &str = "0B 01 01 00 00 00 02 03 01 01 06 01 01 03 02 01 03 04 01 06 01 01";
const WIDE_WITHOUT_STEPS: &str = "0B 20 FF FF FF FF";
/// The coordinator closes the log with a call whose answer is lost.
const CLOSED_UNHEARD: &str = "01 01 01 02 08 00 07 00 01";
/// The coordinator closes the log and hears so.
const CLOSED: &str = "01 01 01 02 08 00 06 00 01";
/// Party 32 closes its own log.
const CALL_OF_PARTY_32: &str = "0B 20 FF FF FF FF 08 20 06 20 20";
/// The coordinator closes log 32 with a call whose answer is lost, and hears so from a second one.
const CALLS_ON_LOG_32: &str = "0B 20 FF FF FF FF 02 08 00 07 00 20 06 00 20";
/// Party 10, which only a wide header gives, closes its own log.
const CALL_OF_PARTY_10: &str = "0B 0A 00 00 00 00 08 0A 06 0A 0A";
const TEN_WITHOUT_STEPS: &str = "0B 0A 00 00 00 00";

/// A party's line for each count, from party 0 on.
fn party_lines(column: &[u32]) -> String {
    let parties = column.iter().enumerate();
    parties
        .map(|(party, calls)| format!("party {party} {calls}\n"))
        .collect()
}

/// The text with these figures: schedules, commit, abort, neither; calls, the mean's whole part and
/// remainder; the calls of parties 0 to the largest n; the largest and the schedule that has it.
fn text(counts: [u32; 4], calls: [u32; 3], column: &[u32], largest: [u32; 2]) -> String {
    let [schedules, commit, abort, neither] = counts;
    let [calls, whole, remainder] = calls;
    let parties = party_lines(column);
    let [largest, schedule] = largest;
    format!(
        "schedules {schedules}\ncommit {commit}\nabort {abort}\nneither {neither}\n\
         calls {calls}\n{parties}mean {whole} {remainder}/{schedules}\n\
         largest {largest} in {schedule}\n"
    )
}

/// The calls of parties 0 to n: those given as party and calls, and 0 for every other.
fn column(n: usize, given: &[(usize, u32)]) -> Vec<u32> {
    let mut column = vec![0; n + 1];
    for &(party, calls) in given {
        column[party] = calls;
    }
    column
}

fn assert_text(
    schedules: &[&str],
    counts: [u32; 4],
    calls: [u32; 3],
    column: &[u32],
    largest: [u32; 2],
) {
    let file = schedules.join(" ");
    let expected = text(counts, calls, column, largest);
    assert_eq!(class_text(&bytes(&file)), expected, "{file}");
}

#[test]
fn the_text_in_full() {
    let file = bytes(&[P3, WIDE, P1, P8].join(" "));
    let expected = "schedules 4\ncommit 1\nabort 2\nneither 1\ncalls 7\n\
                    party 0 0\nparty 1 6\nparty 2 1\nparty 3 0\nparty 4 0\n\
                    party 5 0\nparty 6 0\nparty 7 0\nparty 8 0\n\
                    mean 1 3/4\nlargest 4 in 3\n";
    assert_eq!(class_text(&file), expected);
    let figures = class_figures(&file).expect("accepted");
    let mut column = [0; 33];
    column[..3].copy_from_slice(&[0, 6, 1]);
    let expected = ClassFigures {
        schedules: 4,
        with_commit: 1,
        with_abort: 2,
        with_neither: 1,
        calls: 7,
        column,
        largest_n: 8,
        largest: 4,
        largest_in: 3,
    };
    assert_eq!(figures, expected);
    assert_eq!(figures.mean(), (1, 3));
}

#[test]
fn single_schedules() {
    assert_text(&[P1], [1, 0, 1, 0], [4, 4, 0], &[0, 3, 1], [4, 1]);
    assert_text(&[P2], [1, 1, 0, 0], [2, 2, 0], &[0, 2], [2, 1]);
    assert_text(&[P3], [1, 0, 1, 0], [1, 1, 0], &[0, 1, 0], [1, 1]);
    assert_text(&[P8], [1, 0, 0, 1], [0, 0, 0], &[0; 9], [0, 1]);
    assert_text(&[P13], [1, 0, 0, 1], [0, 0, 0], &[0; 2], [0, 1]);
    assert_text(&[WIDE], [1, 1, 0, 0], [2, 2, 0], &[0, 2], [2, 1]);
}

#[test]
fn both_kinds_of_header_in_one_file() {
    let counts = [6, 2, 2, 2];
    let column = column(32, &[(1, 8), (2, 1)]);
    let file = [P1, WIDE, P2, WIDE_WITHOUT_STEPS, P3, P8];
    assert_text(&file, counts, [9, 1, 3], &column, [4, 1]);
    let file = [WIDE_WITHOUT_STEPS, P8, P3, P2, WIDE, P1];
    assert_text(&file, counts, [9, 1, 3], &column, [4, 6]);
}

#[test]
fn the_first_of_several_largest() {
    let file = [P3, P2, WIDE, P8];
    let with_p8 = column(8, &[(1, 5)]);
    assert_text(&file, [4, 2, 1, 1], [5, 1, 1], &with_p8, [2, 2]);
    let file = [P3, WIDE, P2, P3];
    assert_text(&file, [4, 2, 2, 0], [6, 1, 2], &[0, 6, 0], [2, 2]);
    assert_text(&[P3, P3, P3], [3, 0, 3, 0], [3, 1, 0], &[0, 3, 0], [1, 1]);
    let file = [P2, P2, P1, P1];
    assert_text(&file, [4, 2, 2, 0], [12, 3, 0], &[0, 10, 2], [4, 3]);
    let file = [P1, P1, P2, P1];
    assert_text(&file, [4, 1, 3, 0], [14, 3, 2], &[0, 11, 3], [4, 1]);
}

#[test]
fn schedules_without_steps() {
    let without = [P8, WIDE_WITHOUT_STEPS, P8];
    assert_text(&without, [3, 0, 0, 3], [0, 0, 0], &[0; 33], [0, 1]);
    assert_text(&[P13, P8, P13], [3, 0, 0, 3], [0, 0, 0], &[0; 9], [0, 1]);
    let column = column(8, &[(1, 1)]);
    assert_text(&[P8, P8, P3], [3, 0, 1, 2], [1, 0, 1], &column, [1, 3]);
    assert_text(&[P8, P3, P8], [3, 0, 1, 2], [1, 0, 1], &column, [1, 2]);
}

#[test]
fn the_remainder_is_over_the_number_of_schedules() {
    let file = [P3, P3, P1, P1];
    assert_text(&file, [4, 0, 4, 0], [10, 2, 2], &[0, 8, 2], [4, 3]);
    let with_p1 = column(8, &[(1, 3), (2, 1)]);
    assert_text(&[P1, P8], [2, 0, 1, 1], [4, 2, 0], &with_p1, [4, 1]);
    assert_text(&[P2, P3], [2, 1, 1, 0], [3, 1, 1], &[0, 3, 0], [2, 1]);
    let with_p2 = column(8, &[(1, 2)]);
    assert_text(&[P8, P8, P8, P2], [4, 1, 0, 3], [2, 0, 2], &with_p2, [2, 4]);
}

#[test]
fn closed_logs() {
    assert_eq!(report(&bytes(CLOSED_UNHEARD)).0, [1, 1, 5]);
    assert_eq!(report(&bytes(CLOSED)).0, [1, 1, 7]);
    assert_text(&[CLOSED_UNHEARD], [1, 0, 0, 1], [1, 1, 0], &[1, 0], [1, 1]);
    assert_text(&[CLOSED], [1, 0, 1, 0], [1, 1, 0], &[1, 0], [1, 1]);
    let file = [CLOSED_UNHEARD, CLOSED, CLOSED_UNHEARD];
    assert_text(&file, [3, 0, 1, 2], [3, 1, 0], &[3, 0], [1, 1]);
}

#[test]
fn a_decision_reported_by_several_steps_counts_once() {
    assert_eq!(report(&bytes(P1)).0, [1, 1, 1, 1, 7, 1, 1, 3]);
    assert_eq!(report(&bytes(WIDE)).0, [1, 1, 1, 2, 2, 1]);
    assert_text(&[P1, WIDE], [2, 1, 1, 0], [6, 3, 0], &[0, 5, 1], [4, 1]);
}

#[test]
fn due_calls_alone_are_counted() {
    assert_text(
        &["01 01 01 06 01 01 07 01 01 06 00 01"],
        [1, 0, 0, 1],
        [0, 0, 0],
        &[0, 0],
        [0, 1],
    );
    // Two lost answers, a crash and a restart, and one answer heard.
    let lost = "01 02 03 08 01 07 01 01 07 01 01 09 01 0A 01 06 01 01";
    assert_text(&[P2, lost], [2, 1, 1, 0], [5, 2, 1], &[0, 5, 0], [3, 2]);
    // A log that is heard has no further call pending.
    let heard = "01 02 03 02 03 01 01 06 01 01 08 00 06 00 01 06 00 01";
    assert_text(&[heard], [1, 0, 0, 1], [2, 2, 0], &[1, 1, 0], [2, 1]);
}

#[test]
fn every_schedule_starts_afresh() {
    // The start, the request and the vote of one schedule are not those of the next.
    let parts = ["01 01 01 02", "01 01 01 03 01 01", "01 01 01 06 01 01"];
    assert_text(&parts, [3, 0, 0, 3], [0, 0, 0], &[0, 0], [0, 1]);
    // After a commit, the same log is empty again.
    let abort = "01 01 01 08 01 06 01 01";
    assert_text(&[P2, abort], [2, 1, 1, 0], [3, 1, 1], &[0, 3], [2, 1]);
    assert_text(&[abort, P2], [2, 1, 1, 0], [3, 1, 1], &[0, 3], [2, 2]);
    // The votes are those of the header before.
    let no_vote = "01 01 00 02 03 01 01 06 01 01";
    assert_text(&[P2, no_vote, P2], [3, 2, 1, 0], [5, 1, 2], &[0, 5], [2, 1]);
}

#[test]
fn steps_go_with_the_header_before() {
    let parts = [
        "01 01 01 08 01",
        "0B 09 00 00 00 00 08 09",
        "01 08 00 08 08",
    ];
    assert_text(&parts, [3, 0, 0, 3], [0, 0, 0], &[0; 10], [0, 1]);
}

#[test]
fn bytes_of_a_body_are_no_header() {
    let narrow = "01 01 01 08 01 03 01 01 06 01 01 09 01 0A 01";
    assert_text(&[narrow], [1, 0, 1, 0], [1, 1, 0], &[0, 1], [1, 1]);
    let wide = "0B 0B 01 01 00 00 08 0B 03 01 0B 06 0B 0B 09 01 0A 01";
    let with_wide = column(11, &[(11, 1)]);
    assert_text(&[wide], [1, 0, 1, 0], [1, 1, 0], &with_wide, [1, 1]);
    let file = [narrow, wide, wide];
    let with_all = column(11, &[(1, 1), (11, 2)]);
    assert_text(&file, [3, 0, 3, 0], [3, 1, 0], &with_all, [1, 1]);
}

/// Asserts the refusal of each file, and its text.
fn assert_refusals(cases: &[(&str, u32, usize)]) {
    for &(file, number, value) in cases {
        let bytes = bytes(file);
        assert_eq!(
            class_figures(&bytes),
            Err(Refusal { number, value }),
            "{file}"
        );
        assert_eq!(class_text(&bytes), format!("refused {number} at {value}\n"));
    }
}

#[test]
fn refusals_at_the_beginning() {
    assert_refusals(&[
        ("", 1, 0),
        ("00", 2, 0),
        ("0C 01 01", 2, 0),
        ("FF 01 01 01", 2, 0),
        ("01", 3, 0),
        ("01 09", 3, 0),
        ("0B 21 00 00 00", 3, 0),
        ("06 01", 3, 0),
        ("08", 3, 0),
        ("02", 4, 0),
        ("02 01 01 01", 4, 0),
        ("08 00 01 01 01", 4, 0),
        ("06 FF FF 01 01 01", 4, 0),
        ("01 00 00", 5, 0),
        ("01 09 00", 5, 0),
        ("01 01 02", 5, 0),
        ("0B 00 00 00 00 00", 5, 0),
        ("0B 21 00 00 00 00", 5, 0),
        ("0B 01 02 00 00 00", 5, 0),
    ]);
}

#[test]
fn refusals_in_the_first_schedule() {
    assert_refusals(&[
        ("01 01 01 0C", 2, 3),
        ("01 01 01 02 00 02", 2, 4),
        ("01 01 01 06 01", 3, 3),
        ("01 01 01 06 09", 3, 3),
        ("01 01 01 02 08", 3, 4),
        ("01 01 01 08 02", 5, 3),
        ("01 01 01 02 03 06 01", 5, 4),
        ("01 01 01 02 06 01 00", 5, 4),
        ("0B 20 FF FF FF FF 02 08 21", 5, 7),
    ]);
}

#[test]
fn refusals_in_a_later_schedule() {
    assert_refusals(&[
        ("01 01 01 01 01 01 00", 2, 6),
        ("01 01 01 0B 01 01 00 00 00 02 0C", 2, 10),
        ("01 01 01 01 01 01 06 01", 3, 6),
        ("01 01 01 02 01 02 03 02 08", 3, 8),
        ("01 02 03 08 02 01 01 01 08 02", 5, 8),
        ("01 01 01 0B 20 FF FF FF FF 08 21", 5, 9),
        ("0B 20 FF FF FF FF 08 20 01 08 FF 08 09", 5, 11),
        (&format!("{P1} {P2} 01 01 01 02 FF"), 2, 43),
        (&format!("{P1} {P2} 01 01 01 02 03 01"), 3, 43),
        (&format!("{P1} {P2} 01 01 01 02 03 01 02"), 5, 43),
    ]);
}

#[test]
fn a_later_header_cut_short() {
    assert_refusals(&[
        ("01 01 01 01", 3, 3),
        ("01 01 01 01 01", 3, 3),
        ("01 01 01 01 09", 3, 3),
        ("01 01 01 02 0B", 3, 4),
        ("01 01 01 0B 20 FF FF FF", 3, 3),
        ("01 01 01 0B 21 00 00 00", 3, 3),
        ("0B 20 FF FF FF FF 01 08", 3, 6),
        (&format!("{P1} {P2} {WIDE} 01"), 3, 61),
    ]);
}

#[test]
fn a_later_header_out_of_range() {
    assert_refusals(&[
        ("01 01 01 01 00 00", 5, 3),
        ("01 01 01 01 09 00", 5, 3),
        ("01 01 01 01 01 02", 5, 3),
        ("01 01 01 02 0B 00 00 00 00 00", 5, 4),
        ("01 01 01 0B 21 00 00 00 00", 5, 3),
        ("01 01 01 0B 1F 00 00 00 80", 5, 3),
        ("01 01 01 01 01 01 01 08 FF 01 09 FF", 5, 9),
        (&format!("{P1} {P2} {WIDE} 01 02 04"), 5, 61),
    ]);
}

#[test]
fn the_first_wrong_record_from_the_left() {
    assert_refusals(&[
        ("01 00 00 FF", 5, 0),
        ("02 FF", 4, 0),
        ("01 01 01 08 02 00", 5, 3),
        ("01 01 01 01 09 00 FF", 5, 3),
        ("01 01 01 FF 01 09 00", 2, 3),
        ("01 01 01 08 02 01", 5, 3),
    ]);
}

/// A file of that many bytes: headers of kind 01, then starts.
fn headers_of_length(length: usize) -> Vec<u8> {
    let mut file = bytes(P8).repeat(length / 3);
    file.resize(length, 0x02);
    file
}

#[test]
fn limit_of_file() {
    let expected = text([10_922, 0, 0, 10_922], [0, 0, 0], &[0; 9], [0, 1]);
    assert_eq!(class_text(&headers_of_length(32_766)), expected);
    assert_eq!(class_text(&headers_of_length(32_768)), expected);
    let refused = "refused 1 at 0\n";
    assert_eq!(class_text(&headers_of_length(32_769)), refused);
    assert_eq!(class_text(&headers_of_length(100_000)), refused);
    assert_eq!(class_text(&[0; 32_769]), refused);
    assert_eq!(class_text(&[0; 32_768]), "refused 2 at 0\n");
    let mut cut = headers_of_length(32_766);
    cut.extend([0x01, 0x08]);
    assert_eq!(class_text(&cut), "refused 3 at 32766\n");
    let wide = bytes(WIDE_WITHOUT_STEPS).repeat(5_461);
    let expected = text([5_461, 0, 0, 5_461], [0, 0, 0], &[0; 33], [0, 1]);
    assert_eq!(class_text(&wide), expected);
}

#[test]
fn most_calls_of_a_file() {
    let mut file = bytes("01 01 01 09 01 0A 01");
    file.extend(bytes("07 01 01").repeat(10_920));
    assert_eq!(file.len(), 32_767);
    let calls = [10_920, 10_920, 0];
    let expected = text([1, 0, 0, 1], calls, &[0, 10_920], [10_920, 1]);
    assert_eq!(class_text(&file), expected);
}

#[test]
fn text_of_every_length() {
    for file in [[P1, P8].join(" "), "01 01 01 01".to_string()] {
        let file = bytes(&file);
        let expected = class_text(&file);
        let needed = expected.len();
        for length in 0..=needed + 5 {
            let mut text = vec![0xEE; length];
            let outcome = put_class_text(&file, &mut text);
            if length < needed {
                assert_eq!(outcome, refusal(6, needed));
                assert_eq!(text, vec![0xEE; length]);
                continue;
            }
            assert_eq!(outcome, Ok(needed));
            assert_eq!(text[..needed], *expected.as_bytes());
            assert!(text[needed..].iter().all(|byte| *byte == 0xEE));
        }
    }
}

/// Whether the report of a schedule has a commit and an abort, and the state in its tail.
struct SingleReport {
    has_commit: bool,
    has_abort: bool,
    tail: Tail,
}

impl SingleReport {
    fn of(schedule: &[u8]) -> SingleReport {
        let (steps, tail) = report(schedule);
        let has = |outcome: u8| steps.iter().any(|byte| byte % 4 == outcome);
        SingleReport {
            has_commit: has(2),
            has_abort: has(3),
            tail,
        }
    }

    fn calls(&self) -> u32 {
        self.tail.calls.map(u32::from).iter().sum()
    }
}

/// Each party's counts in the tails of these reports, added.
fn column_of_reports(reports: &[SingleReport]) -> [u32; 33] {
    let mut column = [0; 33];
    for report in reports {
        for (party, calls) in report.tail.calls.iter().enumerate() {
            column[party] += u32::from(*calls);
        }
    }
    column
}

/// The text of a file whose schedules have these reports. The total is added schedule by schedule.
fn text_of_reports(reports: &[SingleReport]) -> String {
    let all = reports.len() as u32;
    let count = |has: fn(&SingleReport) -> bool| reports.iter().filter(|r| has(r)).count() as u32;
    let commit = count(|r| r.has_commit);
    let abort = count(|r| r.has_abort);
    let neither = count(|r| !r.has_commit && !r.has_abort);
    let calls: u32 = reports.iter().map(|r| r.calls()).sum();
    let column = column_of_reports(reports);
    let n = reports.iter().map(|r| r.tail.n).max();
    let n = n.expect("there is a schedule") as usize;
    let largest = reports.iter().map(|r| r.calls()).max();
    let largest = largest.expect("there is a schedule");
    let first = reports.iter().position(|r| r.calls() == largest);
    let first = first.expect("some schedule has the largest");
    text(
        [all, commit, abort, neither],
        [calls, calls / all, calls % all],
        &column[..=n],
        [largest, first as u32 + 1],
    )
}

/// Asserts that the figures of a file with these schedules are those of their single reports.
fn assert_as_reported(schedules: &[Vec<u8>]) {
    let file = schedules.concat();
    let reports: Vec<_> = schedules.iter().map(|s| SingleReport::of(s)).collect();
    let figures = class_figures(&file).expect("accepted");
    assert_eq!(figures.column, column_of_reports(&reports));
    let by_schedule: u32 = reports.iter().map(|r| r.calls()).sum();
    assert_eq!(figures.calls, by_schedule);
    assert_eq!(figures.calls, figures.column.iter().sum::<u32>());
    assert_eq!(class_text(&file), text_of_reports(&reports));
}

#[test]
fn figures_equal_those_of_the_single_reports() {
    let mut numbers = Numbers(6);
    let headers: Vec<_> = headers().into_iter().chain(wide_headers()).collect();
    for _ in 0..100 {
        let mut schedules = Vec::new();
        for _ in 0..1 + numbers.below(30) {
            let header = headers[numbers.below(headers.len())];
            let count = numbers.below(25);
            let steps = steps_from(Tail::fresh(header), count, &mut numbers);
            schedules.push([header_bytes(header), bytes_of(&steps)].concat());
        }
        assert_as_reported(&schedules);
    }
}

/// Asserts the calls of parties 0 to the largest n, in the figures and in the text; that a party
/// beyond has none; and that the figures are those of the single reports.
fn assert_column(schedules: &[&str], expected: &[u32]) {
    let schedules: Vec<Vec<u8>> = schedules.iter().map(|s| bytes(s)).collect();
    assert_as_reported(&schedules);
    let file = schedules.concat();
    let figures = class_figures(&file).expect("accepted");
    let (within_n, beyond) = figures.column.split_at(expected.len());
    assert_eq!(within_n, expected);
    assert!(beyond.iter().all(|calls| *calls == 0));
    assert_eq!(figures.largest_n as usize, expected.len() - 1);
    let total: u32 = expected.iter().sum();
    let lines = format!("\ncalls {total}\n{}mean ", party_lines(expected));
    assert!(class_text(&file).contains(&lines));
}

#[test]
fn column_of_several_schedules() {
    assert_column(&[P1, WIDE], &[0, 5, 1]);
    assert_column(&[WIDE, P1, CLOSED], &[1, 5, 1]);
    let file = [P1, P2, P3, P8, P13, WIDE, CLOSED_UNHEARD, CLOSED];
    assert_column(&file, &column(8, &[(0, 2), (1, 8), (2, 1)]));
}

#[test]
fn parties_beyond_the_first_n() {
    assert_column(&[P2, P1], &[0, 5, 1]);
    assert_column(&[P13, "01 03 07 08 03 06 03 03"], &[0, 0, 0, 1]);
    let with_10 = column(10, &[(1, 4), (10, 1)]);
    assert_column(&[P2, CALL_OF_PARTY_10, P2], &with_10);
    let with_32 = column(32, &[(10, 1), (32, 2)]);
    let file = [CALL_OF_PARTY_10, CALL_OF_PARTY_32, CALL_OF_PARTY_32];
    assert_column(&file, &with_32);
}

#[test]
fn first_and_last_party() {
    assert_column(&[CALL_OF_PARTY_32], &column(32, &[(32, 1)]));
    assert_column(&[CALLS_ON_LOG_32], &column(32, &[(0, 2)]));
    let file = [CALLS_ON_LOG_32, CALL_OF_PARTY_32, CLOSED, WIDE];
    assert_column(&file, &column(32, &[(0, 3), (1, 2), (32, 1)]));
}

#[test]
fn a_call_counts_for_its_party_and_not_for_the_log() {
    // Party 1 votes, closes the log of party 32, and records the abort in its own.
    let closes_log_32 = "0B 20 FF FF FF FF 02 03 01 01 06 01 01 08 01 06 01 20 06 01 01";
    assert_column(&[closes_log_32], &column(32, &[(1, 3)]));
    // Party 32 then hears from its own log that it is closed.
    let hears_so = format!("{closes_log_32} 08 20 06 20 20");
    assert_column(&[&hears_so], &column(32, &[(1, 3), (32, 1)]));
}

/// A schedule in which the coordinator makes 33 calls, and participant p makes p.
fn calls_of_every_party() -> String {
    let mut schedule = "0B 20 FF FF FF FF 02 08 00".to_string();
    schedule += &" 07 00 01".repeat(33);
    for party in 1..=32 {
        schedule += &format!(" 08 {party:02X}");
        schedule += &format!(" 07 {party:02X} {party:02X}").repeat(party);
    }
    schedule
}

#[test]
fn every_party_has_a_count_of_its_own() {
    let every = calls_of_every_party();
    let once: Vec<u32> = [33].into_iter().chain(1..=32).collect();
    assert_column(&[&every], &once);
    let twice: Vec<u32> = once.iter().map(|calls| 2 * calls).collect();
    assert_column(&[&every, P8, &every], &twice);
}

#[test]
fn idle_calls_are_not_in_the_column() {
    // Nobody has a call pending.
    let none_pending = "01 02 03 06 01 01 07 02 02 06 00 01 07 00 02 06 01 02";
    assert_column(&[none_pending], &[0, 0, 0]);
    // Party 2 has a call on its own log alone, and none after the answer.
    let own_log_alone = "01 02 03 08 02 06 02 01 07 02 01 06 02 02 06 02 02 07 02 02";
    assert_column(&[own_log_alone], &[0, 0, 1]);
    // One that is down has none.
    let down = "01 02 03 08 01 09 01 06 01 01 07 01 01";
    assert_column(&[down], &[0, 0, 0]);
    assert_column(&[down, own_log_alone, none_pending, P1], &[0, 3, 2]);
}

#[test]
fn calls_with_a_lost_answer_are_in_the_column() {
    let lost_twice = "01 02 03 08 02 07 02 02 07 02 02 06 02 02";
    assert_column(&[lost_twice], &[0, 0, 3]);
    let crash_after_the_call = "01 02 03 08 01 07 01 01 09 01";
    assert_column(&[crash_after_the_call], &[0, 1, 0]);
    let of_party_9 = "0B 09 00 00 00 00 08 09 07 09 09";
    let file = [lost_twice, of_party_9, crash_after_the_call, CLOSED_UNHEARD];
    assert_column(&file, &column(9, &[(0, 1), (1, 1), (2, 3), (9, 1)]));
}

#[test]
fn lines_up_to_the_largest_n_wherever_it_is() {
    let without_steps = column(10, &[(1, 3), (2, 1)]);
    let with_a_call = column(10, &[(1, 3), (2, 1), (10, 1)]);
    let cases = [
        (TEN_WITHOUT_STEPS, without_steps),
        (CALL_OF_PARTY_10, with_a_call),
    ];
    for (largest, expected) in cases {
        assert_column(&[largest, P1, P8], &expected);
        assert_column(&[P1, largest, P8], &expected);
        assert_column(&[P8, P1, largest], &expected);
    }
    // The wide header has the smaller n.
    assert_column(&[WIDE, P8, WIDE], &column(8, &[(1, 4)]));
}

#[test]
fn lines_of_every_n() {
    for header in headers().into_iter().chain(wide_headers()) {
        let column = column(header.n as usize, &[]);
        let expected = text([1, 0, 0, 1], [0; 3], &column, [0, 1]);
        assert_eq!(class_text(&header_bytes(header)), expected);
    }
}

#[test]
fn program_with_the_word_class() {
    let files = [
        bytes(&[P1, WIDE, P8].join(" ")),
        bytes("01 01 01 01"),
        Vec::new(),
        headers_of_length(32_768),
        headers_of_length(32_769),
    ];
    for file in files {
        let output = output(&["class"], &file);
        assert!(output.status.success());
        assert_eq!(output.stdout, class_text(&file).as_bytes());
        assert_eq!(output.stderr, b"");
    }
}

#[test]
fn program_with_other_words() {
    for words in [
        &["classes"][..],
        &["class", "class"],
        &["class", "sheet"],
        &[""],
    ] {
        let output = output(words, &bytes(P1));
        assert_eq!(output.status.code(), Some(2));
        assert_eq!(output.stdout, b"");
        assert_eq!(
            output.stderr,
            b"usage: second | second class | second sheet\n"
        );
    }
}
