//! Wrong readings of document 02's request b: imports of captures.

use crate::model::capture::{byte_on, falls, import_with, moments, read, transfers, words};
use crate::model::capture::{Event, Moment, Recording, Steps, Variable};
use crate::model::capture::{DB0, E, RS, RW, SIGNALS, STEPS};
use crate::model::{self, Answer, Importer, Transfer};

/// The import with a wrong step in it.
macro_rules! step {
    ($step:ident, $wrong:expr) => {
        |capture, out| {
            let steps = Steps {
                $step: $wrong,
                ..STEPS
            };
            import_with(&steps, capture, out)
        }
    };
}

/// The import of other words than those that stand there.
macro_rules! of_words {
    ($other:ident) => {
        |capture, out| match words(capture) {
            Some(words) => model::import(&$other(&words).join(&b' '), out),
            None => model::import(capture, out),
        }
    };
}

/// The import, but for captures that are taken to be outside the subset.
macro_rules! without {
    ($refused:ident) => {
        |capture, out| match read(capture) {
            Some(recording) if $refused(capture, &recording) => (model::OUTSIDE_SUBSET, 0),
            _ => model::import(capture, out),
        }
    };
}

// ---------------------------------------------------------------------------
// The levels at a stamp
// ---------------------------------------------------------------------------

/// The moments if each stamp stood for itself, and if asked for each change too.
fn apart(recording: &Recording, changes: bool) -> Vec<Moment> {
    let mut stamps = Vec::new();
    let mut numbered = recording.clone();
    numbered.events.clear();
    for &event in &recording.events {
        let stamp = match event {
            Event::Stamp(stamp) => Some(stamp),
            Event::Change(..) => stamps.last().copied().filter(|_| changes),
        };
        if let Some(stamp) = stamp {
            numbered.events.push(Event::Stamp(stamps.len() as u32));
            stamps.push(stamp);
        }
        if let Event::Change(..) = event {
            numbered.events.push(event);
        }
    }
    let moments = moments(&numbered).into_iter();
    moments
        .map(|moment| Moment {
            stamp: stamps[moment.stamp as usize],
            ..moment
        })
        .collect()
}

/// E is judged at each change instead of at the stamp's end.
fn judged_at_each_change(recording: &Recording) -> Vec<Moment> {
    apart(recording, true)
}

/// A repeated stamp is taken for two.
fn repeated_stamp_is_two(recording: &Recording) -> Vec<Moment> {
    apart(recording, false)
}

/// A value before the first stamp does not count.
fn early_values_lost(recording: &Recording) -> Vec<Moment> {
    let is_change = |event: &&Event| matches!(event, Event::Change(..));
    let early = recording.events.iter().take_while(is_change).count();
    moments(&Recording {
        variables: recording.variables.clone(),
        events: recording.events[early..].to_vec(),
    })
}

/// The last stamp is left out, since none follows it.
fn last_stamp_lost(recording: &Recording) -> Vec<Moment> {
    let mut all = moments(recording);
    all.pop();
    all
}

/// What is x or z counts as 0.
fn unknown_is_0(recording: &Recording) -> Vec<Moment> {
    let mut all = moments(recording);
    for level in all.iter_mut().flat_map(|moment| &mut moment.levels) {
        *level = Some(level.unwrap_or(false));
    }
    all
}

/// All lines are 0 until set.
fn unset_is_0(recording: &Recording) -> Vec<Moment> {
    let codes = recording.variables.iter().map(|variable| variable.code);
    let zeros = codes.map(|code| Event::Change(Some(false), code));
    let mut set = recording.clone();
    set.events = zeros.chain(recording.events.iter().copied()).collect();
    moments(&set)
}

/// A code serves the first of its names alone.
fn code_serves_one_name(recording: &Recording) -> Vec<Moment> {
    let mut served = recording.clone();
    let mut variables: Vec<Variable> = Vec::new();
    for &variable in &recording.variables {
        if variables.iter().all(|each| each.code != variable.code) {
            variables.push(variable);
        }
    }
    served.variables = variables;
    moments(&served)
}

// ---------------------------------------------------------------------------
// The transfers
// ---------------------------------------------------------------------------

type Transfers = Option<Vec<Transfer>>;

/// The model's transfers, each with a wait of its number.
fn timed(moments: &[Moment], wait: impl Fn(usize) -> u32) -> Transfers {
    let mut all = transfers(moments)?;
    for (number, transfer) in all.iter_mut().enumerate() {
        transfer.2 = wait(number);
    }
    Some(all)
}

/// The stamps at which E goes up to fall, each in the place of its fall.
fn rises(moments: &[Moment]) -> Vec<u32> {
    let mut rises = Vec::new();
    let mut rise = None;
    for moment in moments {
        match moment.levels[E] {
            Some(true) => rise = rise.or(Some(moment.stamp)),
            Some(false) => rises.extend(rise.take()),
            None => rise = None,
        }
    }
    rises
}

/// The wait is counted from the rise before.
fn wait_from_rise(moments: &[Moment]) -> Transfers {
    let (rises, falls) = (rises(moments), falls(moments));
    timed(moments, |number| match number {
        0 => 0,
        _ => falls[number].stamp.wrapping_sub(rises[number - 1]),
    })
}

/// The wait is counted from rise to rise.
fn wait_between_rises(moments: &[Moment]) -> Transfers {
    let rises = rises(moments);
    timed(moments, |number| match number {
        0 => 0,
        _ => rises[number].wrapping_sub(rises[number - 1]),
    })
}

/// The first wait is counted from the capture's first stamp.
fn first_wait_from_start(moments: &[Moment]) -> Transfers {
    let mut all = transfers(moments)?;
    if let Some(first) = all.first_mut() {
        first.2 = falls(moments)[0].stamp.wrapping_sub(moments[0].stamp);
    }
    Some(all)
}

/// The stamps' difference does not start again from 0.
fn difference_not_wrapped(moments: &[Moment]) -> Transfers {
    let falls = falls(moments);
    timed(moments, |number| match number {
        0 => 0,
        _ => falls[number].stamp.saturating_sub(falls[number - 1].stamp),
    })
}

/// 1 to x to 0 is taken for a fall.
fn falls_through_x(moments: &[Moment]) -> Transfers {
    let known = moments.iter().filter(|moment| moment.levels[E].is_some());
    transfers(&known.copied().collect::<Vec<_>>())
}

/// The other lines count as they stood at the stamp before the fall.
fn lines_before_the_fall(moments: &[Moment]) -> Transfers {
    let mut earlier = moments.to_vec();
    for (moment, before) in earlier.iter_mut().skip(1).zip(moments) {
        let now = moment.levels[E];
        moment.levels = before.levels;
        moment.levels[E] = now;
    }
    transfers(&earlier)
}

/// x or z on a DB line is refused for a read too.
fn unknown_refused_for_reads(moments: &[Moment]) -> Transfers {
    let all_known = |moment: &Moment| byte_on(&moment.levels).is_some();
    transfers(moments).filter(|_| falls(moments).iter().all(all_known))
}

/// A read's byte is written as the lines stand.
fn read_byte_as_it_stands(moments: &[Moment]) -> Transfers {
    let mut all = transfers(moments)?;
    for (transfer, fall) in all.iter_mut().zip(falls(moments)) {
        transfer.1 = byte_on(&fall.levels).unwrap_or(0x00);
    }
    Some(all)
}

/// RS and RW are taken for each other.
fn rs_for_rw(moments: &[Moment]) -> Transfers {
    let mut other = moments.to_vec();
    other.iter_mut().for_each(|each| each.levels.swap(RS, RW));
    transfers(&other)
}

/// DB0 is taken for the highest bit.
fn lowest_is_highest(moments: &[Moment]) -> Transfers {
    let mut other = moments.to_vec();
    other
        .iter_mut()
        .for_each(|each| each.levels[DB0..].reverse());
    transfers(&other)
}

// ---------------------------------------------------------------------------
// The subset
// ---------------------------------------------------------------------------

/// Words of their own, which can be put together again.
type Words = Vec<Vec<u8>>;

fn owned(words: &[&[u8]]) -> Words {
    words.iter().map(|word| word.to_vec()).collect()
}

/// Where the changes begin.
fn definitions_end(words: &[&[u8]]) -> usize {
    let end = words.iter().position(|&word| word == b"$enddefinitions");
    end.map_or(words.len(), |at| (at + 2).min(words.len()))
}

/// A vector change is skipped.
fn vector_skipped(all: &[&[u8]]) -> Words {
    let (definitions, changes) = all.split_at(definitions_end(all));
    let mut kept = owned(definitions);
    let mut changes = changes.iter();
    while let Some(word) = changes.next() {
        match word[0] {
            b'b' | b'B' => drop(changes.next()),
            _ => kept.push(word.to_vec()),
        }
    }
    kept
}

/// A `$dumpvars` inside another is let pass.
fn dump_in_dump(all: &[&[u8]]) -> Words {
    let mut dumping = false;
    let mut kept = owned(all);
    let changes = kept.split_off(definitions_end(all));
    for word in changes {
        let again = dumping && word == b"$dumpvars";
        dumping = (dumping || word == b"$dumpvars") && word != b"$end";
        if !again {
            kept.push(word);
        }
    }
    kept
}

/// A stamp above 4,294,967,295 is let pass, and wrapped.
fn great_stamp(all: &[&[u8]]) -> Words {
    let mut words = owned(all);
    for word in &mut words[definitions_end(all)..] {
        let digits = word
            .strip_prefix(b"#")
            .map(<[u8]>::to_vec)
            .unwrap_or_default();
        let number = String::from_utf8_lossy(&digits).parse::<u64>();
        if let Ok(stamp @ 4_294_967_296..) = number {
            *word = format!("#{}", stamp as u32).into_bytes();
        }
    }
    words
}

/// A capture without a timescale is let pass.
fn no_timescale(all: &[&[u8]]) -> Words {
    let mut words = owned(all);
    if !all.contains(&&b"$timescale"[..]) {
        words.splice(0..0, owned(&[b"$timescale", b"1us", b"$end"]));
    }
    words
}

/// A bit select after a name is let pass.
fn bit_select(all: &[&[u8]]) -> Words {
    let mut words = owned(all);
    words.retain(|word| word != b"[0]");
    words
}

/// Comments, dates and versions are skipped.
fn comments_skipped(all: &[&[u8]]) -> Words {
    let mut kept = Vec::new();
    let mut skipping = false;
    for word in owned(all) {
        skipping |= matches!(&word[..], b"$comment" | b"$date" | b"$version");
        let ends = skipping && word == b"$end";
        if !skipping {
            kept.push(word);
        }
        skipping &= !ends;
    }
    kept
}

/// Stamps must rise.
fn stamps_must_rise(_: &[u8], recording: &Recording) -> bool {
    let moments = moments(recording);
    moments.windows(2).any(|two| two[1].stamp < two[0].stamp)
}

/// A zero may not stand before a stamp's other digits.
fn zero_before_stamp(capture: &[u8], _: &Recording) -> bool {
    let words = words(capture).unwrap_or_default();
    let changes = &words[definitions_end(&words)..];
    changes
        .iter()
        .any(|word| word.starts_with(b"#0") && word.len() > 2)
}

/// x and z must be small letters.
fn capital_unknown(capture: &[u8], _: &Recording) -> bool {
    let words = words(capture).unwrap_or_default();
    let changes = &words[definitions_end(&words)..];
    changes.iter().any(|word| matches!(word[0], b'X' | b'Z'))
}

/// A carriage return parts no words.
fn carriage_return(capture: &[u8], _: &Recording) -> bool {
    capture.contains(&b'\r')
}

/// Each scope must be left, and none that was not entered.
fn scopes_balanced(capture: &[u8], _: &Recording) -> bool {
    let words = words(capture).unwrap_or_default();
    let count = |keyword: &[u8]| words.iter().filter(|&&word| word == keyword).count();
    count(b"$scope") != count(b"$upscope")
}

/// No code may serve two names.
fn codes_differ(_: &[u8], recording: &Recording) -> bool {
    let mut codes: Vec<&[u8]> = recording.variables.iter().map(|each| each.code).collect();
    codes.sort_unstable();
    codes.windows(2).any(|two| two[0] == two[1])
}

/// Each code of a change is declared, or is like one that is.
fn declares_like(recording: &Recording, like: impl Fn(&[u8], &[u8]) -> bool) -> bool {
    let codes = recording.variables.iter().map(|variable| variable.code);
    recording.events.iter().all(|event| match event {
        Event::Stamp(_) => true,
        Event::Change(_, changed) => codes.clone().any(|code| like(code, changed)),
    })
}

/// A code that another begins with is let pass.
fn code_begun(recording: &Recording) -> bool {
    declares_like(recording, |code, changed| {
        !changed.is_empty() && code.starts_with(changed)
    })
}

/// Of a code the first two characters count.
fn code_cut(recording: &Recording) -> bool {
    declares_like(recording, |code, changed| {
        code.iter().take(2).eq(changed.iter().take(2))
    })
}

/// A code that is declared the other way round is let pass.
fn code_turned(recording: &Recording) -> bool {
    declares_like(recording, |code, changed| {
        code == changed || code.iter().eq(changed.iter().rev())
    })
}

// ---------------------------------------------------------------------------
// The order of the refusals, and the output
// ---------------------------------------------------------------------------

/// 15 is answered before 14: the names are sought in any text.
fn missing_before_text(capture: &[u8], out: &mut [u8]) -> (Answer, usize) {
    let (answer, length) = model::import(capture, out);
    let words = words(capture).unwrap_or_default();
    let is_missing = |signal: &&[u8]| !words.contains(signal);
    if answer == model::OUTSIDE_SUBSET && SIGNALS.iter().any(is_missing) {
        return (model::SIGNAL_MISSING, 0);
    }
    (answer, length)
}

/// 28 is answered before a refusal of this number.
fn unknown_before(late: Answer, capture: &[u8], out: &mut [u8]) -> (Answer, usize) {
    let (answer, length) = model::import(capture, out);
    let unknown = |recording| transfers(&moments(&recording)).is_none();
    if answer == late && read(capture).is_some_and(unknown) {
        return (model::UNKNOWN_LEVEL, 0);
    }
    (answer, length)
}

/// 11 is answered before 28.
fn short_before_unknown(capture: &[u8], out: &mut [u8]) -> (Answer, usize) {
    let (answer, length) = model::import(capture, out);
    if answer == model::UNKNOWN_LEVEL && out.is_empty() {
        return (model::TOO_SHORT, 0);
    }
    (answer, length)
}

/// What there is room for is written before 11 is answered.
fn short_output_filled(capture: &[u8], out: &mut [u8]) -> (Answer, usize) {
    let (answer, length) = model::import(capture, out);
    if answer == model::TOO_SHORT {
        let mut room = vec![0; capture.len() * model::LINE_BYTES];
        model::import(capture, &mut room);
        out.copy_from_slice(&room[..out.len()]);
    }
    (answer, length)
}

/// Sixteen bytes are wanted for each line.
fn sixteen_a_line(capture: &[u8], out: &mut [u8]) -> (Answer, usize) {
    let mut room = vec![0; capture.len() * model::LINE_BYTES];
    let (_, length) = model::import(capture, &mut room);
    let lines = room[..length].iter().filter(|&&byte| byte == b'\n').count();
    if length > 0 && out.len() < lines * model::LINE_BYTES {
        return (model::TOO_SHORT, 0);
    }
    model::import(capture, out)
}

/// One byte past the session is overwritten.
fn output_runs_over(capture: &[u8], out: &mut [u8]) -> (Answer, usize) {
    let (answer, length) = model::import(capture, out);
    if let (model::DONE, Some(past)) = (answer, out.get_mut(length)) {
        *past = 0;
    }
    (answer, length)
}

pub const WRONG_IMPORTERS: [(&str, Importer); 41] = [
    (
        "judged-at-each-change",
        step!(moments, judged_at_each_change),
    ),
    (
        "repeated-stamp-is-two",
        step!(moments, repeated_stamp_is_two),
    ),
    ("early-values-lost", step!(moments, early_values_lost)),
    ("last-stamp-lost", step!(moments, last_stamp_lost)),
    ("unknown-is-0", step!(moments, unknown_is_0)),
    ("unset-is-0", step!(moments, unset_is_0)),
    ("code-serves-one-name", step!(moments, code_serves_one_name)),
    ("wait-from-rise", step!(transfers, wait_from_rise)),
    ("wait-between-rises", step!(transfers, wait_between_rises)),
    (
        "first-wait-from-start",
        step!(transfers, first_wait_from_start),
    ),
    (
        "difference-not-wrapped",
        step!(transfers, difference_not_wrapped),
    ),
    ("falls-through-x", step!(transfers, falls_through_x)),
    (
        "lines-before-the-fall",
        step!(transfers, lines_before_the_fall),
    ),
    (
        "unknown-refused-for-reads",
        step!(transfers, unknown_refused_for_reads),
    ),
    (
        "read-byte-as-it-stands",
        step!(transfers, read_byte_as_it_stands),
    ),
    ("rs-for-rw", step!(transfers, rs_for_rw)),
    ("lowest-is-highest", step!(transfers, lowest_is_highest)),
    ("name-twice", step!(declares_once, |_| true)),
    ("undeclared-code", step!(declares_codes, |_| true)),
    ("code-begun", step!(declares_codes, code_begun)),
    ("code-cut", step!(declares_codes, code_cut)),
    ("code-turned", step!(declares_codes, code_turned)),
    ("vector-skipped", of_words!(vector_skipped)),
    ("dump-in-dump", of_words!(dump_in_dump)),
    ("great-stamp", of_words!(great_stamp)),
    ("no-timescale", of_words!(no_timescale)),
    ("bit-select", of_words!(bit_select)),
    ("comments-skipped", of_words!(comments_skipped)),
    ("stamps-must-rise", without!(stamps_must_rise)),
    ("zero-before-stamp", without!(zero_before_stamp)),
    ("capital-unknown", without!(capital_unknown)),
    ("carriage-return", without!(carriage_return)),
    ("scopes-balanced", without!(scopes_balanced)),
    ("codes-differ", without!(codes_differ)),
    ("missing-before-text", missing_before_text),
    ("unknown-before-missing", |capture, out| {
        unknown_before(model::SIGNAL_MISSING, capture, out)
    }),
    ("unknown-before-text", |capture, out| {
        unknown_before(model::OUTSIDE_SUBSET, capture, out)
    }),
    ("short-before-unknown", short_before_unknown),
    ("short-output-filled", short_output_filled),
    ("sixteen-a-line", sixteen_a_line),
    ("output-runs-over", output_runs_over),
];
