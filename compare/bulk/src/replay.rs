//! The programs `replay`, `mark`, `class` and `print_sheet`: what they print for an input. `replay`
//! gets its frames from a thread while its lines are read, since it may print before it has read
//! everything.

use std::env;
use std::io::{self, Read, Write};
use std::path::{Path, PathBuf};
use std::process::{Command, ExitStatus, Stdio};
use std::thread;

pub struct Programs {
    replay: PathBuf,
    mark: PathBuf,
    class: PathBuf,
    print_sheet: PathBuf,
}

/// What a program printed, and how it ended.
pub struct Printed {
    pub text: Vec<u8>,
    pub status: ExitStatus,
}

impl Printed {
    /// Whether the program printed just this and did not fail.
    pub fn agrees(&self, expected: &[u8]) -> bool {
        self.status.success() && self.text == expected
    }
}

impl Programs {
    /// The programs of the repository; `mark` and `print_sheet` stand beside `replay`, and so does
    /// `class` unless it is named.
    pub fn find() -> Programs {
        let replay = match env::var_os("KOKUMSPAR_REPLAY") {
            Some(path) => PathBuf::from(path),
            None => Path::new(env!("CARGO_MANIFEST_DIR")).join("../../target/bin/replay"),
        };
        let mark = replay.with_file_name("mark");
        let print_sheet = replay.with_file_name("print_sheet");
        let class = match env::var_os("KOKUMSPAR_CLASS") {
            Some(path) => PathBuf::from(path),
            None => replay.with_file_name("class"),
        };
        Programs {
            replay,
            mark,
            class,
            print_sheet,
        }
    }

    pub fn replay(&self, input: &[u8]) -> Printed {
        printed(&self.replay, input)
    }

    pub fn mark(&self, schedule: &[u8]) -> Printed {
        printed(&self.mark, schedule)
    }

    pub fn class(&self, file: &[u8]) -> Printed {
        printed(&self.class, file)
    }

    pub fn print_sheet(&self, input: &[u8]) -> Printed {
        printed(&self.print_sheet, input)
    }
}

fn printed(program: &Path, input: &[u8]) -> Printed {
    run(program, input).unwrap_or_else(|error| {
        eprintln!("bulk: {} cannot be run: {error}", program.display());
        std::process::exit(2)
    })
}

fn run(program: &Path, input: &[u8]) -> io::Result<Printed> {
    let mut child = Command::new(program)
        .stdin(Stdio::piped())
        .stdout(Stdio::piped())
        .spawn()?;
    let mut to = child.stdin.take().expect("standard input is a pipe");
    let mut from = child.stdout.take().expect("standard output is a pipe");
    let mut text = Vec::new();
    thread::scope(|scope| {
        // A program that ends early does not read the rest; what it printed tells so.
        scope.spawn(move || to.write_all(input));
        from.read_to_end(&mut text)
    })?;
    let status = child.wait()?;
    Ok(Printed { text, status })
}

/// The frames of these schedules: two bytes of length, low byte first, then the schedule.
pub fn frames(schedules: &[Vec<u8>]) -> Vec<u8> {
    let mut input = Vec::new();
    for schedule in schedules {
        let length = u16::try_from(schedule.len()).expect("a frame has at most 65,535 bytes");
        input.extend_from_slice(&length.to_le_bytes());
        input.extend_from_slice(schedule);
    }
    input
}
