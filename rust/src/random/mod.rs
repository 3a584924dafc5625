//! What chance makes: numbers that a seed repeats, and from them records, wishes, calls,
//! lines, session texts and captures, sound and damaged.

pub mod calls;
mod captures;
mod chance;
mod damage;
mod lines;
mod phrases;
mod pod;
mod records;
mod texts;
mod wishes;

pub use calls::PROFILES;
pub use captures::{first_stamp, random_capture, session_to_capture, sound_capture};
pub use chance::{Chance, SEED};
pub use damage::every_damage;
pub use records::{any_frequency, sound_record, whole_memory, FREQUENCY_EDGES};
pub use texts::{asked_frequency, random_panel_text, random_text};
pub use wishes::{sound_marks, sound_wish};
