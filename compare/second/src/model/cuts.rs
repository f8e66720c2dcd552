//! Cuts: at every reachable state none, some or all parties crash, and the list goes on.

use crate::coordinator;
use crate::model::graph::Graph;
use crate::model::state::State;
use crate::model::{Rules, Violation};
use crate::participant;
use crate::schedule::{Record, CRASH};
use crate::tail::Tail;

const ONLY_THE_CRASHED_CHANGE: &str =
    "after crashes at a cut, every log, message and other party stands as before";
const AGAIN_ONE_LIST: &str = "a state after crashes at a cut is again reachable";

/// Checks every reachable state with every set of parties that crash there, by steps of kind 09.
pub fn check(graph: &Graph, rules: Rules) -> Result<(), Violation> {
    for place in 0..graph.number_of_states() {
        let before = graph.state(place);
        for crashed in 0..1 << (graph.header.n + 1) {
            let crashes = crash_steps(graph.header.n, crashed);
            if let Err(clause) = check_crashes(graph, rules, &before, &crashes) {
                return Err(graph.violation(clause, place, &crashes));
            }
        }
    }
    Ok(())
}

/// A crash of each party in the set; bit p means party p.
fn crash_steps(n: u32, crashed: u32) -> Vec<Record> {
    let parties = (0..=n).filter(|party| crashed & (1 << party) != 0);
    let crash = |party| Record {
        kind: CRASH,
        first: party,
        second: 0,
    };
    parties.map(crash).collect()
}

fn check_crashes(
    graph: &Graph,
    rules: Rules,
    before: &State,
    crashes: &[Record],
) -> Result<(), &'static str> {
    let mut state = *before;
    let mut expected = *before;
    for crash in crashes {
        state = state.take(*crash, rules).after;
        set_down(&mut expected.tail, crash.first);
    }
    if state != expected {
        return Err(ONLY_THE_CRASHED_CHANGE);
    }
    if !graph.is_reachable(&state) {
        return Err(AGAIN_ONE_LIST);
    }
    Ok(())
}

/// This party down and its memory lost, all else as it was.
fn set_down(tail: &mut Tail, party: u32) {
    if party == 0 {
        (tail.state, tail.heard) = (coordinator::DOWN, 0);
        return;
    }
    let fields = &mut tail.participants[party as usize - 1];
    (fields.state, fields.heard) = (participant::DOWN, 0);
}
