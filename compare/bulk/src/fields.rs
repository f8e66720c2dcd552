//! The places of the fields in the bytes of a tail, for either form.

use second::Form;

/// A field's place, and its length in bytes.
pub type Field = (usize, usize);

/// n, votes, coordinator state, heard mask and the five message masks.
pub fn release(form: Form) -> [Field; 9] {
    let width = form.mask_bytes();
    let mask = |at| (2 + width + at * width, width);
    let (votes, state) = ((1, width), (1 + width, 1));
    [
        (0, 1),
        votes,
        state,
        mask(0),
        mask(1),
        mask(2),
        mask(3),
        mask(4),
        mask(5),
    ]
}

/// State, heard mask, first and last record of participant `at` + 1.
pub fn participant(form: Form, at: usize) -> [Field; 4] {
    let width = form.mask_bytes();
    let place = 2 + 7 * width + at * (3 + width);
    let records = place + 1 + width;
    [
        (place, 1),
        (place + 1, width),
        (records, 1),
        (records + 1, 1),
    ]
}

/// The count of a party's calls.
pub fn count(form: Form, party: usize) -> Field {
    let [(after_participants, _), ..] = participant(form, form.most_participants() as usize);
    (after_participants + 2 * party, 2)
}

/// Puts a number into a field, low byte first; of a number beyond its bytes the low ones.
pub fn put(bytes: &mut [u8], (place, length): Field, number: u32) {
    bytes[place..][..length].copy_from_slice(&number.to_le_bytes()[..length]);
}
