//! The model keeps the words of document 02's request b, and its readings: captures.

mod answers;
mod chance;
mod falls;
mod given;
mod round_trip;
mod subset;
