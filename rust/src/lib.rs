//! The outside checks of the bench Yaropesk: an independent model, written from its
//! documents alone, the proved library behind safe functions, and what compares them.

pub mod bytes;
pub mod calls;
pub mod case;
pub mod demand;
pub mod drawing;
pub mod font;
pub mod imports;
pub mod library;
pub mod model;
pub mod options;
pub mod programs;
pub mod random;
pub mod tally;
pub mod wrong;
