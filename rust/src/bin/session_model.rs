//! The session program of document 01, on the model: reads standard input to its
//! end and prints the report.

use std::io::{self, Read, Write};

use yaropesk_model::model;

fn main() {
    let mut text = Vec::new();
    // What cannot be read ends the text where it stands.
    let _ = io::stdin().lock().read_to_end(&mut text);
    // Reading 17: "what cannot be written to standard output is dropped, and the
    // program ends."
    let _ = io::stdout().lock().write_all(&model::session(&text));
}
