//! Changes of a tail's fields to numbers about their bounds, for either form.

use crate::fields::{count, participant, release, Field};
use crate::schedules::full;
use second::Form;

/// Fields that get a number each.
pub type Change = Vec<(Field, u32)>;

const N: [u32; 7] = [0, 1, 8, 9, 32, 33, 255];
const COUNTS: [u32; 9] = [0, 1, 255, 256, 53_999, 54_000, 54_001, 65_534, 65_535];

/// Changes of every field of a tail of this form with this n, also of those beyond n.
pub fn every_change(form: Form, n: u32) -> Vec<Change> {
    let most = form.most_participants() as usize;
    let mut changes = changes_of_release(form, n);
    for at in 0..most {
        changes.extend(changes_of_participant(form, n, at));
    }
    for party in 0..=most {
        changes.extend(COUNTS.map(|number| vec![(count(form, party), number)]));
    }
    changes.extend(bytes_beyond(form, n).map(|place| vec![((place, 1), 1)]));
    changes
}

/// The places of all bytes that are 0 in a tail with this n.
fn bytes_beyond(form: Form, n: u32) -> impl Iterator<Item = usize> {
    let n = n as usize;
    let [(participants, _), ..] = participant(form, n);
    let ((first_count, _), (counts, _)) = (count(form, 0), count(form, n + 1));
    (participants..first_count).chain(counts..form.tail_length())
}

/// Masks that go up to n and beyond. Of the greatest n nothing is beyond.
fn masks(form: Form, n: u32) -> [u32; 5] {
    let highest = 1 << (8 * form.mask_bytes() - 1);
    let full = full(n);
    [0, full, full.wrapping_add(1), highest, u32::MAX]
}

fn changes_of_release(form: Form, n: u32) -> Vec<Change> {
    let [n_field, votes, state, heard, messages @ ..] = release(form);
    let about = [n - 1, n + 1];
    let numbers = N.into_iter().chain(about);
    let mut changes: Vec<Change> = numbers.map(|number| vec![(n_field, number)]).collect();
    for field in [votes].into_iter().chain(messages) {
        changes.extend(masks(form, n).map(|mask| vec![(field, mask)]));
    }
    let full = full(n);
    let heard_masks = [1, full >> 1, full - 1].into_iter().chain(masks(form, n));
    for mask in heard_masks {
        let states = (0..=7).chain([255]);
        changes.extend(states.map(|number| vec![(state, number), (heard, mask)]));
    }
    changes
}

/// States with heard masks, and pairs of records.
fn changes_of_participant(form: Form, n: u32, at: usize) -> Vec<Change> {
    let [state, heard, first, last] = participant(form, at);
    let own = 1 << at;
    let others = full(n) & !own;
    let but_one = others & others.wrapping_sub(1);
    let heard_masks = [1, own, but_one, others].into_iter().chain(masks(form, n));
    let mut changes = Vec::new();
    for mask in heard_masks {
        let states = (0..=10).chain([255]);
        changes.extend(states.map(|number| vec![(state, number), (heard, mask)]));
    }
    for one in (0..=4).chain([255]) {
        let records = (0..=4).chain([255]);
        changes.extend(records.map(|other| vec![(first, one), (last, other)]));
    }
    changes
}
