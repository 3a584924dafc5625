//! The drawing on the model is what tests/glass/ stores of the program `glass`.

use std::fs;
use std::path::{Path, PathBuf};

use yaropesk_model::drawing::{Asked, DRAWING, FORMS};
use yaropesk_model::model::Panel;

/// What the words ask for.
fn wanted<'a>(mut words: impl Iterator<Item = &'a str>) -> Asked {
    let mut asked = Asked::USUAL;
    let mut numbers = Vec::new();
    while let Some(word) = words.next() {
        if let Some(form) = FORMS.into_iter().find(|form| form.word() == word) {
            asked.form = form;
            continue;
        }
        let mut number = || words.next().and_then(|next| next.parse().ok());
        match word {
            "--until" => asked.until = Some(number().expect("a number of transfers")),
            "--divided" => asked.panel = Panel::DIVIDED,
            "--khz" => asked.frequency = Some(number().expect("a frequency") as u16),
            _ => numbers.push(word.parse().expect("a number")),
        }
    }
    match numbers[..] {
        [20, 4] => asked.panel = Panel::FOUR_ROWS,
        [columns, lines] => asked.panel = Panel::plain(columns, lines),
        _ => {}
    }
    asked
}

fn stored_words(root: &Path) -> Vec<PathBuf> {
    let folder = fs::read_dir(root.join("tests/glass")).expect("the folder is there");
    folder
        .map(|entry| entry.expect("an entry").path())
        .filter(|path| path.extension().is_some_and(|ending| ending == "words"))
        .collect()
}

#[test]
fn stored_drawings_are_drawn() {
    let root = Path::new(env!("CARGO_MANIFEST_DIR")).join("..");
    let stored = stored_words(&root);
    assert!(stored.len() > 10);
    for path in stored {
        let words = fs::read_to_string(&path).expect("words");
        let mut words = words.split_whitespace();
        let session = root.join(words.next().expect("a session"));
        let text = fs::read(session).expect("a session's text");
        let written = DRAWING.program(&text, &wanted(words));
        let drawn = fs::read(path.with_extension("out")).expect("a drawing");
        assert!(written.output == drawn, "{}", path.display());
    }
}
