//! The progress clause for one participant: from any point at which it is up, with no crash of its
//! own and no timeout of its own while terminating, it comes to hold a recorded decision.

use crate::model::graph::Graph;
use crate::model::Violation;
use crate::participant::{DONE_ABORT, DONE_COMMIT, DOWN, TERMINATING};
use crate::schedule::{Record, CALL_ANSWERED, CRASH, TIMEOUT};
use crate::store::{ABORT, COMMIT};
use crate::tail::Tail;

const STAYS_HELD: &str = "a decision once held stays held";
const SOMETHING_DUE: &str = "until a decision is held, a timeout or call of its own is due";
const FEW_CALLS: &str =
    "where no decision is held yet, at most n of its calls have been answered since the point";

/// What a state is to the participant.
#[derive(Clone, Copy, PartialEq, Eq)]
enum Standing {
    Down,
    HoldsNone { terminating: bool },
    Holds,
}

/// Where a counted state was found from: the point, or another counted state.
#[derive(Clone, Copy)]
enum FoundFrom {
    Point(u32),
    Counted(u32),
}

/// A state in which no decision is held, and the calls answered since the point, at least one.
struct Counted {
    place: u32,
    answered: u32,
    from: FoundFrom,
    step: Record,
}

struct Progress<'a> {
    graph: &'a Graph,
    participant: u32,
    standings: Vec<Standing>,
    counted: Vec<Counted>,
    /// For each state, as a mask, the counts of answered calls that it was found with.
    found: Vec<u8>,
}

/// Checks the clause for this participant.
pub fn check(graph: &Graph, participant: u32) -> Result<(), Violation> {
    let states = graph.number_of_states();
    let standing = |place| Standing::of(&graph.state(place).tail, participant);
    let mut progress = Progress {
        graph,
        participant,
        standings: (0..states).map(standing).collect(),
        counted: Vec::new(),
        found: vec![0; states],
    };
    for place in 0..states {
        progress.check_state(place)?;
    }
    progress.check_counts()
}

impl Standing {
    fn of(tail: &Tail, participant: u32) -> Standing {
        let last = tail.log(participant).last;
        match (tail.participant(participant).state, last) {
            (DOWN, _) => Standing::Down,
            (DONE_COMMIT, COMMIT) | (DONE_ABORT, ABORT) => Standing::Holds,
            (state, _) => Standing::HoldsNone {
                terminating: state == TERMINATING,
            },
        }
    }
}

impl Progress<'_> {
    /// Whether the clause's conditions on the participant allow this due step here.
    fn is_allowed(&self, place: usize, step: Record) -> bool {
        let terminating = Standing::HoldsNone { terminating: true };
        match step.kind {
            CRASH => step.first != self.participant,
            TIMEOUT => step.first != self.participant || self.standings[place] != terminating,
            _ => true,
        }
    }

    fn is_own(&self, kind: u32, step: Record) -> bool {
        step.kind == kind && step.first == self.participant
    }

    /// The clauses that need no count.
    fn check_state(&self, place: usize) -> Result<(), Violation> {
        match self.standings[place] {
            Standing::Down => Ok(()),
            Standing::Holds => self.check_stays_held(place),
            Standing::HoldsNone { .. } => self.check_something_due(place),
        }
    }

    fn check_stays_held(&self, place: usize) -> Result<(), Violation> {
        for (step, target) in self.graph.due_steps(place) {
            if self.is_allowed(place, step) && self.standings[target] != Standing::Holds {
                return Err(self.violation(STAYS_HELD, place, &[step]));
            }
        }
        Ok(())
    }

    fn check_something_due(&self, place: usize) -> Result<(), Violation> {
        let mut due = self.graph.due_steps(place);
        if due.any(|(step, _)| self.is_own(TIMEOUT, step) || self.is_own(CALL_ANSWERED, step)) {
            return Ok(());
        }
        Err(self.violation(SOMETHING_DUE, place, &[]))
    }

    /// Explores the states with the calls answered since the point, from every reachable state as
    /// the point. Shorter lists come first, so the first violation has a shortest list.
    fn check_counts(&mut self) -> Result<(), Violation> {
        let mut depth = 0;
        let mut waiting = 0..0;
        loop {
            let points = self.graph.level(depth);
            if points.is_empty() && waiting.is_empty() {
                return Ok(());
            }
            for at in waiting.clone() {
                let Counted {
                    place, answered, ..
                } = self.counted[at];
                self.follow(place as usize, answered, FoundFrom::Counted(at as u32))?;
            }
            for place in points {
                self.follow(place, 0, FoundFrom::Point(place as u32))?;
            }
            waiting = waiting.end..self.counted.len();
            depth += 1;
        }
    }

    /// Takes all allowed steps from a state with a count. Where a decision is held nothing is left
    /// to count, since it stays held; a count of 0 is that of a point of its own.
    fn follow(&mut self, place: usize, answered: u32, from: FoundFrom) -> Result<(), Violation> {
        if !matches!(self.standings[place], Standing::HoldsNone { .. }) {
            return Ok(());
        }
        let graph = self.graph;
        for (step, target) in graph.due_steps(place) {
            if !self.is_allowed(place, step) || self.standings[target] == Standing::Holds {
                continue;
            }
            let answered = answered + u32::from(self.is_own(CALL_ANSWERED, step));
            if answered > graph.header.n {
                return Err(self.count_violation(from, step));
            }
            self.find(Counted {
                place: target as u32,
                answered,
                from,
                step,
            });
        }
        Ok(())
    }

    fn find(&mut self, counted: Counted) {
        let found = &mut self.found[counted.place as usize];
        let bit = 1 << counted.answered;
        if counted.answered > 0 && *found & bit == 0 {
            *found |= bit;
            self.counted.push(counted);
        }
    }

    fn count_violation(&self, from: FoundFrom, step: Record) -> Violation {
        let mut steps = vec![step];
        let mut from = from;
        loop {
            match from {
                FoundFrom::Counted(at) => {
                    let counted = &self.counted[at as usize];
                    steps.push(counted.step);
                    from = counted.from;
                }
                FoundFrom::Point(point) => {
                    steps.reverse();
                    return self.violation(FEW_CALLS, point as usize, &steps);
                }
            }
        }
    }

    /// This clause does not hold for the participant, with that point and those further steps.
    fn violation(&self, clause: &str, point: usize, further: &[Record]) -> Violation {
        let before = self.graph.steps_to(point).len();
        let participant = self.participant;
        let clause =
            format!("participant {participant}, from the point after step {before}: {clause}");
        self.graph.violation(&clause, point, further)
    }
}
