//! Group 44, what stands on a sheet: the lines that the program `print_sheet` prints, and the
//! schedules, each through the run and all of a sheet through the class figures.

use crate::class_files::{header_places, schedules_at};
use crate::difference::{hexadecimal, packed_words, schedule_words, Difference};
use crate::entries::every_string;
use crate::figures::ReportBytes;
use crate::jobs;
use crate::lending::{sheet_words, Entry, Sheet};
use crate::lent::{lend, Lent};
use crate::printed;
use crate::proved;
use crate::replay::Programs;
use crate::sheets::{asked_by, in_bounds};
use crate::whole::every_schedule;
use second::{report, Form, Header};
use std::fmt;

/// The bytes that the program gets for n, the vote mask and k.
const BYTES: [&[u8]; 3] = [
    &[0, 1, 2, 3, 8, 255],
    &[0, 1, 2, 3, 4, 255],
    &[0, 1, 2, 3, 4, 255],
];

/// How many bytes follow those three in the longest inputs: more than a pipe holds.
const MANY: usize = 100_000;

#[derive(Clone, Copy, Default)]
pub struct SheetScheduleFigures {
    /// Inputs of the program.
    printed: u64,
    sheets: u64,
    schedules: u64,
    steps: ReportBytes,
    /// Schedules, due or not, among which those of the sheets are all that are due.
    tried: u64,
}

impl SheetScheduleFigures {
    fn add(&mut self, other: &SheetScheduleFigures) {
        self.printed += other.printed;
        self.sheets += other.sheets;
        self.schedules += other.schedules;
        self.steps.add(&other.steps);
        self.tried += other.tried;
    }

    pub fn schedules(&self) -> u64 {
        self.schedules
    }

    /// Each sheet is written once and counted once.
    pub fn calls(&self) -> u64 {
        self.printed + 2 * self.sheets
    }
}

impl fmt::Display for SheetScheduleFigures {
    fn fmt(&self, to: &mut fmt::Formatter) -> fmt::Result {
        write!(
            to,
            "program print_sheet on {} inputs; {} sheets with {} schedules, \
             all that are due among {}; steps: {}",
            self.printed, self.sheets, self.schedules, self.tried, self.steps
        )
    }
}

/// Compares what the program prints for many inputs, and the schedules of every sheet in bounds.
pub fn compare(programs: &Programs) -> Result<SheetScheduleFigures, Difference> {
    let inputs = inputs();
    jobs::run_all(inputs.len(), |job| compare_printed(programs, &inputs[job]))?;
    let sheets = in_bounds();
    let done = jobs::run_all(sheets.len(), |job| compare_schedules(sheets[job]))?;
    let mut whole = SheetScheduleFigures {
        printed: inputs.len() as u64,
        ..SheetScheduleFigures::default()
    };
    done.iter().for_each(|part| whole.add(part));
    Ok(whole)
}

/// Every input of up to three of those bytes, and each sheet in bounds with bytes after it and with
/// a byte before, which makes n 0.
fn inputs() -> Vec<Vec<u8>> {
    let mut inputs = every_string(&BYTES);
    for sheet in in_bounds() {
        let bytes = sheet.map(|number| number as u8);
        for further in [vec![0], vec![1, 1, 1], vec![2; MANY]] {
            inputs.push([&bytes[..], &further].concat());
        }
        inputs.push([&[0], &bytes[..]].concat());
    }
    inputs
}

fn compare_printed(programs: &Programs, input: &[u8]) -> Result<(), Difference> {
    let expected = |input: &[u8]| {
        let [n, votes, k] = asked_by(input);
        second::sheet_text(n, votes, k)
    };
    let words = |input: &[u8]| {
        let (sheet, bytes) = (sheet_words(asked_by(input)), hexadecimal(input));
        format!("print_sheet, {sheet}, {} bytes: {bytes}", input.len())
    };
    printed::compare(input, |input| programs.print_sheet(input), expected, words)
}

/// The figures of a sheet in bounds on which the right schedules stand.
fn compare_schedules(sheet: Sheet) -> Result<SheetScheduleFigures, Difference> {
    let entry = Entry::Sheet(sheet);
    let lent = entry.compare(entry.room())?;
    let bytes = lent.written();
    let schedules = schedules_at(bytes, &header_places(bytes));
    let mut figures = SheetScheduleFigures {
        sheets: 1,
        schedules: schedules.len() as u64,
        ..SheetScheduleFigures::default()
    };
    for schedule in schedules {
        compare_steps(sheet, schedule, &mut figures.steps)?;
    }
    compare_count(sheet, bytes)?;
    figures.tried = compare_every(sheet, bytes)?;
    Ok(figures)
}

/// The run accepts a schedule of the sheet, and every one of its k steps is due.
fn compare_steps(sheet: Sheet, schedule: &[u8], steps: &mut ReportBytes) -> Result<(), Difference> {
    let entry = Entry::Run(schedule);
    let lent = entry.compare(entry.room())?;
    let (k, bytes) = (sheet[2], step_bytes(&lent));
    if !are_due(&lent, k) {
        let what = format!("its schedule of {}", schedule_words(schedule));
        let (answer, bytes) = (packed_words(lent.answer), hexadecimal(bytes));
        let given = format!("run: {answer}; step bytes: {bytes}");
        let wanted = format!("run: no refusal; step bytes: {k}, none of them idle");
        return Err(unfit(sheet, &what, given, wanted));
    }
    bytes.iter().for_each(|byte| steps.note(*byte));
    Ok(())
}

/// The class figures of the sheet count as many schedules as it has lines.
fn compare_count(sheet: Sheet, bytes: &[u8]) -> Result<(), Difference> {
    let [n, votes, k] = sheet;
    let lines = second::sheet_text(n, votes, k).lines().count();
    let entry = Entry::Class(bytes);
    let lent = entry.compare(entry.room())?;
    let given = String::from_utf8_lossy(lent.written()).into_owned();
    let wanted = format!("schedules {lines}\n");
    if given.starts_with(&wanted) {
        return Ok(());
    }
    Err(unfit(sheet, "its class figures", given, wanted))
}

/// Of every schedule of k steps, those in which the proved run reports no step idle stand on the
/// sheet, in ascending order. This takes no word from the second program. Answers how many there
/// are, due or not.
fn compare_every(sheet: Sheet, bytes: &[u8]) -> Result<u64, Difference> {
    let [n, votes, k] = sheet;
    let kind = Form::Narrow.header_kind();
    let mut schedules = every_schedule(Header { kind, n, votes }, k);
    let tried = schedules.len() as u64;
    schedules.retain(|schedule| {
        let room = Entry::Run(schedule).room();
        are_due(&lend(room, |report| proved::run(schedule, report)), k)
    });
    schedules.sort();
    let wanted = schedules.concat();
    if bytes == wanted {
        return Ok(tried);
    }
    let (given, wanted) = (hexadecimal(bytes), hexadecimal(&wanted));
    Err(unfit(sheet, "its bytes", given, wanted))
}

/// Whether a run was accepted and reports this many steps, none of them idle.
fn are_due(lent: &Lent, steps: u32) -> bool {
    let bytes = step_bytes(lent);
    let idle = |byte: &u8| report::outcome(*byte) == report::IDLE;
    lent.number() == 0 && bytes.len() == steps as usize && !bytes.iter().any(idle)
}

/// The report of a narrow schedule without its tail; nothing where the run refused it.
fn step_bytes(lent: &Lent) -> &[u8] {
    let report = lent.written();
    &report[..report.len().saturating_sub(Form::Narrow.tail_length())]
}

/// The sides agree on every call, and still the sheet is not what it is to be.
fn unfit(sheet: Sheet, what: &str, given: String, wanted: String) -> Difference {
    Difference {
        input: format!(
            "both sides alike, sheet of {}; \
             below stands first what is given, then what is wanted, of {what}",
            sheet_words(sheet)
        ),
        proved: given,
        second: wanted,
    }
}
