//! The model keeps the rules of document 01, a file for each chapter, or a part of one, and of
//! document 02 request c, `fields` and `damage`, request d, `oscillator`, and request e,
//! `profiles`.

mod bench_cases;
mod damage;
mod dots;
mod fields;
mod font;
mod given;
mod halves;
mod instructions;
mod lines;
mod oscillator;
mod plan;
mod profiles;
mod record;
mod transfer;
