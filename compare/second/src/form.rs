//! The two forms of a run: its header's kind says how many participants it may have and how many
//! bytes a mask takes.

use crate::mask::MOST_PARTICIPANTS;
use crate::schedule::{NARROW_HEADER, WIDE_HEADER};

/// Narrow under header kind 01, wide under header kind 0B.
#[derive(Clone, Copy, PartialEq, Eq, Debug)]
pub enum Form {
    Narrow,
    Wide,
}

impl Form {
    /// The form of a run under a header of this kind.
    pub fn under(kind: u32) -> Form {
        match kind {
            WIDE_HEADER => Form::Wide,
            _ => Form::Narrow,
        }
    }

    /// The kind of its header.
    pub const fn header_kind(self) -> u32 {
        match self {
            Form::Narrow => NARROW_HEADER,
            Form::Wide => WIDE_HEADER,
        }
    }

    /// The largest n; also the number of participants in the tail.
    pub const fn most_participants(self) -> u32 {
        match self {
            Form::Narrow => 8,
            Form::Wide => MOST_PARTICIPANTS,
        }
    }

    /// The bytes of a mask.
    pub const fn mask_bytes(self) -> usize {
        match self {
            Form::Narrow => 1,
            Form::Wide => 4,
        }
    }
}
