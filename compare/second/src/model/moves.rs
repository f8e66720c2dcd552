//! Moves: a run from the moved tail of any reachable state goes on in that same state. So the part
//! before a move and what follows it are one list, and the other clauses hold across the move.

use crate::form::Form;
use crate::marker::run_from;
use crate::model::graph::Graph;
use crate::model::Violation;
use crate::moving::move_tail;
use crate::refusal::Refusal;
use crate::tail::{Tail, MOST_CALLS_BEFORE_A_RUN};

const NOTHING_LOST: &str = "a run from the moved tail of a state goes on in that same state";

/// Checks every reachable state, and gives their number.
pub fn check(graph: &Graph) -> Result<usize, Violation> {
    let states = graph.number_of_states();
    for place in 0..states {
        let tail = with_counts(graph.state(place).tail);
        if gone_on_from(&tail) != Ok(tail) {
            return Err(graph.violation(NOTHING_LOST, place, &[]));
        }
    }
    Ok(states)
}

/// The state with a count of calls for each party, all different and none 0, since the states of the
/// exploration have none.
fn with_counts(tail: Tail) -> Tail {
    let mut tail = tail;
    let parties = tail.n as usize + 1;
    for (count, calls) in tail.calls[..parties].iter_mut().zip(1..) {
        *count = MOST_CALLS_BEFORE_A_RUN - calls;
    }
    tail
}

/// The state at the end of a run that starts from this state's tail, moved, and takes no steps.
fn gone_on_from(tail: &Tail) -> Result<Tail, Refusal> {
    let mut wide = [0; Form::Wide.tail_length()];
    let mut report = [0; Form::Wide.tail_length()];
    move_tail(&tail.narrow_bytes(), &mut wide)?;
    run_from(&wide, &[], &mut report)?;
    Ok(Tail::from_bytes(Form::Wide, &report))
}
