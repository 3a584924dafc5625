//! How the eleven lines stand at each stamp of a capture.

use std::collections::HashMap;

use super::{Event, Recording, SIGNALS};

/// The levels of the eleven lines, in the order of `SIGNALS`; none is x or z.
pub type Levels = [Option<bool>; SIGNALS.len()];

/// A stamp, and the lines "after all changes at a stamp".
#[derive(Clone, Copy, Debug, PartialEq, Eq)]
pub struct Moment {
    pub stamp: u32,
    pub levels: Levels,
}

/// Each stamp with its lines. Reading: "No stamp at all is a capture of no transfers,
/// answered 0": it has no moment.
pub fn moments(recording: &Recording) -> Vec<Moment> {
    let lines = lines_of_codes(recording);
    // Reading: "All lines are x until set."
    let mut levels: Levels = [None; SIGNALS.len()];
    let mut moments: Vec<Moment> = Vec::new();
    for event in &recording.events {
        match *event {
            // "a stamp repeated at once is one stamp"
            Event::Stamp(stamp) if moments.last().map(|last| last.stamp) == Some(stamp) => {}
            // "Values before the first stamp count as at it": they stand when it comes.
            Event::Stamp(stamp) => moments.push(Moment { stamp, levels }),
            Event::Change(level, code) => {
                for &line in lines.get(code).into_iter().flatten() {
                    levels[line] = level;
                }
                if let Some(last) = moments.last_mut() {
                    last.levels = levels;
                }
            }
        }
    }
    moments
}

/// The lines that each code serves; "all other scalars skipped", so that many serve none.
fn lines_of_codes<'a>(recording: &Recording<'a>) -> HashMap<&'a [u8], Vec<usize>> {
    let mut lines: HashMap<&[u8], Vec<usize>> = HashMap::new();
    for variable in &recording.variables {
        let line = SIGNALS.iter().position(|&signal| signal == variable.name);
        lines.entry(variable.code).or_default().extend(line);
    }
    lines
}
