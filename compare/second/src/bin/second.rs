//! Runs many schedules: reads frames of a two-byte length, low byte first, and a schedule, and
//! prints one line for each, the report in hexadecimal or the refusal. With the word `class` it
//! reads one class file instead and prints its figures or the refusal; with the word `sheet` it
//! reads n, vote mask and k, a byte each, and prints the schedules of that sheet or the refusal.

use std::env;
use std::ffi::OsString;
use std::io::{self, BufRead, BufReader, ErrorKind, Read, Write};
use std::process::ExitCode;

use second::{class_text, run, sheet_text, Refusal};

const USAGE: &str = "usage: second | second class | second sheet";

const INPUT_BLOCK: usize = 1 << 20;
const OUTPUT_BLOCK: usize = 1 << 20;
const MOST_FRAME_BYTES: usize = 65_535;
/// A report of a step for each of 32,768 bytes and a tail of 320 would fit.
const MOST_REPORT_BYTES: usize = 32_768 + 320;

fn main() -> io::Result<ExitCode> {
    let words: Vec<OsString> = env::args_os().skip(1).collect();
    match &words[..] {
        [] => run_frames()?,
        [word] if word == "class" => print_class()?,
        [word] if word == "sheet" => print_sheet()?,
        _ => {
            eprintln!("{USAGE}");
            return Ok(ExitCode::from(2));
        }
    }
    Ok(ExitCode::SUCCESS)
}

/// The figures of the class file that standard input holds.
fn print_class() -> io::Result<()> {
    let mut file = Vec::new();
    io::stdin().lock().read_to_end(&mut file)?;
    let mut output = io::stdout().lock();
    output.write_all(class_text(&file).as_bytes())?;
    output.flush()
}

/// The sheet of the n, vote mask and k that standard input begins with. A byte that is missing
/// counts as 0, and what follows the three is not read.
fn print_sheet() -> io::Result<()> {
    let mut given = Vec::new();
    io::stdin().lock().take(3).read_to_end(&mut given)?;
    let number = |place: usize| given.get(place).map_or(0, |&byte| u32::from(byte));
    let text = sheet_text(number(0), number(1), number(2));
    let mut output = io::stdout().lock();
    output.write_all(text.as_bytes())?;
    output.flush()
}

/// A line for each frame of standard input.
fn run_frames() -> io::Result<()> {
    let mut input = BufReader::with_capacity(INPUT_BLOCK, io::stdin().lock());
    let mut output = io::stdout().lock();
    let mut lines = Vec::with_capacity(2 * OUTPUT_BLOCK);
    let mut frame = vec![0; MOST_FRAME_BYTES];
    let mut report = vec![0; MOST_REPORT_BYTES];
    while !input.fill_buf()?.is_empty() {
        let Some(length) = read_frame(&mut input, &mut frame)? else {
            lines.extend_from_slice(b"incomplete frame\n");
            break;
        };
        match run(&frame[..length], &mut report) {
            Ok(written) => put_hexadecimal(&mut lines, &report[..written]),
            Err(refusal) => put_refusal(&mut lines, refusal)?,
        }
        lines.push(b'\n');
        if lines.len() >= OUTPUT_BLOCK {
            output.write_all(&lines)?;
            lines.clear();
        }
    }
    output.write_all(&lines)?;
    output.flush()
}

/// The length of the next frame, now in `frame`; nothing if the input ends inside it.
fn read_frame(input: &mut impl Read, frame: &mut [u8]) -> io::Result<Option<usize>> {
    let mut length = [0; 2];
    if !read_whole(input, &mut length)? {
        return Ok(None);
    }
    let length = usize::from(u16::from_le_bytes(length));
    let is_whole = read_whole(input, &mut frame[..length])?;
    Ok(is_whole.then_some(length))
}

/// Whether the input had bytes for all of `lent`.
fn read_whole(input: &mut impl Read, lent: &mut [u8]) -> io::Result<bool> {
    match input.read_exact(lent) {
        Ok(()) => Ok(true),
        Err(error) if error.kind() == ErrorKind::UnexpectedEof => Ok(false),
        Err(error) => Err(error),
    }
}

fn put_hexadecimal(lines: &mut Vec<u8>, report: &[u8]) {
    let place = lines.len();
    lines.resize(place + 2 * report.len(), 0);
    for (pair, &byte) in lines[place..].chunks_exact_mut(2).zip(report) {
        pair[0] = digit(byte >> 4);
        pair[1] = digit(byte & 15);
    }
}

/// The digit of a number below 16. Worked out instead of looked up, so that many are done at once.
fn digit(number: u8) -> u8 {
    let letter = u8::from(number > 9) * (b'a' - b'9' - 1);
    b'0' + number + letter
}

fn put_refusal(lines: &mut Vec<u8>, refusal: Refusal) -> io::Result<()> {
    write!(lines, "refused {} at {}", refusal.number, refusal.value)
}
