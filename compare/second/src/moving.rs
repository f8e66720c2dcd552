//! Runs in progress: the tail that a run may go on from, and the move of a narrow tail to the wide
//! form.

use crate::form::Form;
use crate::refusal::{Refusal, BUFFER_TOO_SHORT, OUT_OF_RANGE, TAIL_OF_ANOTHER_LENGTH};
use crate::tail::{Tail, MOST_CALLS_BEFORE_A_RUN};

/// The state that a tail of this form holds, whether or not a run gave it; or a refusal, which
/// concerns no record and hands back 0.
pub(crate) fn accept_tail(form: Form, bytes: &[u8]) -> Result<Tail, Refusal> {
    let refuse = |number| Err(Refusal { number, value: 0 });
    if bytes.len() != form.tail_length() {
        return refuse(TAIL_OF_ANOTHER_LENGTH);
    }
    let tail = Tail::from_bytes(form, bytes);
    if !tail.is_in_range(form, MOST_CALLS_BEFORE_A_RUN) {
        return refuse(OUT_OF_RANGE);
    }
    Ok(tail)
}

/// Writes the wide tail of a narrow tail's state into the lent buffer and returns its length; or a
/// refusal, and the buffer is untouched.
pub fn move_tail(tail: &[u8], wide: &mut [u8]) -> Result<usize, Refusal> {
    let state = accept_tail(Form::Narrow, tail)?;
    let length = Form::Wide.tail_length();
    let Some(lent) = wide.get_mut(..length) else {
        return Err(Refusal {
            number: BUFFER_TOO_SHORT,
            value: length,
        });
    };
    state.put(Form::Wide, lent);
    Ok(length)
}
