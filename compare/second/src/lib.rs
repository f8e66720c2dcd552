//! A second implementation of document 01 with requests 2026-01 to 2026-04 and 2026-06 to 2026-08:
//! the store, the participant, the coordinator, the reader and writer of schedules, the marker that
//! runs a schedule of one release or goes on from a tail, the move of a tail to the wide form, the
//! figures of a class file with the calls of each party, the sheet of every short exercise, and the
//! host entry. Request 2026-05 changes no answer.

mod class;
mod coordinator;
mod form;
mod host;
mod listing;
mod marker;
mod mask;
mod message;
pub mod model;
mod moving;
mod participant;
mod refusal;
mod release;
pub mod report;
mod schedule;
mod sheet;
mod store;
mod tail;

pub use class::{class_figures, class_text, put_class_text, ClassFigures};
pub use form::Form;
pub use host::host_step;
pub use listing::{listing, listing_from};
pub use marker::{run, run_from};
pub use moving::move_tail;
pub use refusal::Refusal;
pub use release::{is_due, single_step, take_step};
pub use schedule::{read_record, write_record, Header, Record};
pub use sheet::{sheet_text, write_sheet};
pub use store::{log_entry, log_once_entry, Log, Performed};
pub use tail::{ParticipantFields, Tail};
