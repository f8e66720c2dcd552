//! Checks by execution, for n from 1 to a largest n and every vote mask, all clauses about whole
//! lists of steps, and prints how much was explored.

use std::process::ExitCode;

use second::model::{check, Figures, Violation, MOST_PARTICIPANTS_OF_MODEL};
use second::{Form, Header};

/// 2 takes a second; 3, the largest that can be given, about five minutes and two gigabytes.
const LARGEST_N_IF_NONE_IS_GIVEN: u32 = 2;

fn main() -> ExitCode {
    let Some(largest) = largest_n() else {
        eprintln!("model: the largest n goes from 1 to {MOST_PARTICIPANTS_OF_MODEL}");
        return ExitCode::from(2);
    };
    match check_up_to(largest) {
        Ok(Figures {
            states,
            steps,
            moved,
            ..
        }) => {
            print!("model: n 1 to {largest}, all votes: {states} states, {steps} steps, ");
            println!("{moved} states moved over, every clause holds");
            ExitCode::SUCCESS
        }
        Err(violation) => {
            print_violation(&violation);
            ExitCode::FAILURE
        }
    }
}

/// The program's argument, or the n that stands for none; nothing if it is out of range.
fn largest_n() -> Option<u32> {
    let Some(argument) = std::env::args().nth(1) else {
        return Some(LARGEST_N_IF_NONE_IS_GIVEN);
    };
    let largest = argument.parse().ok()?;
    (1..=MOST_PARTICIPANTS_OF_MODEL)
        .contains(&largest)
        .then_some(largest)
}

fn check_up_to(largest: u32) -> Result<Figures, Violation> {
    let mut sum = Figures::default();
    for n in 1..=largest {
        for votes in 0..1 << n {
            let kind = Form::Narrow.header_kind();
            let figures = check(Header { kind, n, votes })?;
            let Figures {
                states,
                steps,
                due_steps,
                moved,
            } = figures;
            println!(
                "n {n}, votes {votes:02x}: {states} states, {steps} steps, {due_steps} of them due"
            );
            sum.states += states;
            sum.steps += steps;
            sum.moved += moved;
        }
    }
    Ok(sum)
}

fn print_violation(violation: &Violation) {
    let digits: Vec<String> = violation
        .schedule
        .iter()
        .map(|byte| format!("{byte:02x}"))
        .collect();
    println!("violated: {}", violation.clause);
    println!("schedule: {}", digits.join(" "));
}
