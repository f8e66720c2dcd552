//! The proved side: the C functions of the archives `export` and `host`, for slices instead of
//! pointers. The answers stay packed as the functions give them, so that no bit of them escapes the
//! comparison.

use second::Header;

extern "C" {
    fn cornus_participant_step(
        n: u32,
        own: u32,
        state: u32,
        heard: u32,
        event: u32,
        detail: u32,
        record: u32,
        out: *mut u8,
        out_len: usize,
    ) -> u32;
    fn compare_run(bytes: *const u8, length: usize, report: *mut u8, report_len: usize) -> u64;
    fn compare_list(bytes: *const u8, length: usize, text: *mut u8, text_len: usize) -> u64;
    fn compare_move(tail: *const u8, tail_len: usize, wide: *mut u8, wide_len: usize) -> u64;
    fn compare_run_from(
        tail: *const u8,
        tail_len: usize,
        steps: *const u8,
        steps_len: usize,
        report: *mut u8,
        report_len: usize,
    ) -> u64;
    fn compare_list_from(
        tail: *const u8,
        tail_len: usize,
        steps: *const u8,
        steps_len: usize,
        text: *mut u8,
        text_len: usize,
    ) -> u64;
    fn compare_class(file: *const u8, file_len: usize, text: *mut u8, text_len: usize) -> u64;
    fn compare_sheet(n: u32, votes: u32, k: u32, out: *mut u8, out_len: usize) -> u64;
    fn compare_write(
        buffer: *mut u8,
        buffer_len: usize,
        place: u32,
        kind: u32,
        first: u32,
        second: u32,
    ) -> u64;
    fn compare_read(bytes: *const u8, length: usize, told: u32, n: u32, votes: u32) -> u64;
    fn compare_log_once(first: u32, last: u32, record: u32) -> u32;
    fn compare_log(first: u32, last: u32, record: u32) -> u32;
    fn compare_single_step(
        state: *mut u8,
        length: usize,
        kind: u32,
        first: u32,
        second: u32,
    ) -> u32;
}

// Every pointer below comes from a slice with the length that is handed over beside it, and the
// functions keep to that length and keep no pointer: that is what is proved of them. A slice's
// pointer is never null.

/// The seven numbers are n, own number, state, heard mask, event, detail and record.
pub fn host_step(numbers: [u32; 7], out: &mut [u8]) -> u32 {
    let [n, own, state, heard, event, detail, record] = numbers;
    let (bytes, length) = (out.as_mut_ptr(), out.len());
    unsafe { cornus_participant_step(n, own, state, heard, event, detail, record, bytes, length) }
}

pub fn run(schedule: &[u8], report: &mut [u8]) -> u64 {
    let (bytes, length) = (schedule.as_ptr(), schedule.len());
    unsafe { compare_run(bytes, length, report.as_mut_ptr(), report.len()) }
}

pub fn list(schedule: &[u8], text: &mut [u8]) -> u64 {
    let (bytes, length) = (schedule.as_ptr(), schedule.len());
    unsafe { compare_list(bytes, length, text.as_mut_ptr(), text.len()) }
}

pub fn move_tail(tail: &[u8], wide: &mut [u8]) -> u64 {
    unsafe { compare_move(tail.as_ptr(), tail.len(), wide.as_mut_ptr(), wide.len()) }
}

pub fn run_from(tail: &[u8], steps: &[u8], report: &mut [u8]) -> u64 {
    let (bytes, length) = (tail.as_ptr(), tail.len());
    let (report, report_len) = (report.as_mut_ptr(), report.len());
    unsafe {
        compare_run_from(
            bytes,
            length,
            steps.as_ptr(),
            steps.len(),
            report,
            report_len,
        )
    }
}

pub fn list_from(tail: &[u8], steps: &[u8], text: &mut [u8]) -> u64 {
    let (bytes, length) = (tail.as_ptr(), tail.len());
    let (text, text_len) = (text.as_mut_ptr(), text.len());
    unsafe { compare_list_from(bytes, length, steps.as_ptr(), steps.len(), text, text_len) }
}

pub fn class(file: &[u8], text: &mut [u8]) -> u64 {
    unsafe { compare_class(file.as_ptr(), file.len(), text.as_mut_ptr(), text.len()) }
}

pub fn sheet(n: u32, votes: u32, k: u32, out: &mut [u8]) -> u64 {
    unsafe { compare_sheet(n, votes, k, out.as_mut_ptr(), out.len()) }
}

/// The three numbers are the kind and the body's two numbers.
pub fn write_record(buffer: &mut [u8], place: u32, numbers: [u32; 3]) -> u64 {
    let [kind, first, second] = numbers;
    unsafe {
        compare_write(
            buffer.as_mut_ptr(),
            buffer.len(),
            place,
            kind,
            first,
            second,
        )
    }
}

/// The answer's bytes, lowest first, are the record's kind, its first number and its length, and its
/// second number in four; or 0, the refusal's number, 0, and its place in four.
pub fn read_record(bytes: &[u8], before: Option<Header>) -> u64 {
    // The number of the told header's kind says that there is one.
    let (told, n, votes) = match before {
        Some(header) => (header.kind, header.n, header.votes),
        None => (0, 0, 0),
    };
    unsafe { compare_read(bytes.as_ptr(), bytes.len(), told, n, votes) }
}

/// Asserts the range, since the functions take no other numbers.
fn assert_records(numbers: [u32; 3]) {
    assert!(numbers.iter().all(|number| *number <= 3));
}

/// The three numbers are the log's first and last record and the record of the call, each 0 to 3.
/// The answer's bytes, lowest first, are the refusal's number or 0, the log's first and last record
/// afterwards, and the record answered, plus 4 where the call wrote the log's first record.
pub fn log_once_entry(numbers: [u32; 3]) -> u32 {
    assert_records(numbers);
    unsafe { compare_log_once(numbers[0], numbers[1], numbers[2]) }
}

/// As `log_once_entry`.
pub fn log_entry(numbers: [u32; 3]) -> u32 {
    assert_records(numbers);
    unsafe { compare_log(numbers[0], numbers[1], numbers[2]) }
}

/// The state has 320 bytes whatever its n, and the three numbers are the step's kind and its two
/// numbers.
pub fn single_step(state: &mut [u8], numbers: [u32; 3]) -> u32 {
    let [kind, first, second] = numbers;
    unsafe { compare_single_step(state.as_mut_ptr(), state.len(), kind, first, second) }
}
