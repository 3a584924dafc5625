//! Measures the proved library and the session program beside the straightforward
//! model, in one run.
//!
//! ```text
//! bench PROGRAM MODEL_PROGRAM [ROUNDS [CAPTURE_BYTES]]
//! ```
//!
//! Both sides do the same work on the same bytes, in turn; of several rounds the best
//! of each side counts. The ratio is the library's speed over the model's: 1.00 is
//! level, above it the library is faster. Where no rounds and no bytes of a capture are
//! named, they are those of docs/BENCH.md.

use std::env;
use std::fs::{self, File};
use std::hint::black_box;
use std::path::{Path, PathBuf};
use std::process::{exit, Command};
use std::time::{Duration, Instant};

use yaropesk_model::bytes::{record_bytes, wish_bytes, RECORD_BYTES};
use yaropesk_model::calls::{Calls, MODEL};
use yaropesk_model::imports::{Import, Imported};
use yaropesk_model::library::Library;
use yaropesk_model::model::capture::{E, SIGNALS};
use yaropesk_model::model::{self, Half, Panel, Record, Transfer, Wish};
use yaropesk_model::model::{DATA_READ, DATA_WRITE, INSTRUCTION_WRITE, STATUS_READ};
use yaropesk_model::model::{LINE_BYTES, MEMORY, PLAN_BYTES, SESSION_BYTES};
use yaropesk_model::model::{TRANSFER_BYTES, USUAL_KHZ};
use yaropesk_model::random::{sound_record, whole_memory, Chance, SEED};

const ROUNDS: usize = 60;
const CAPTURE_BYTES: usize = 2_000_000;

// ---------------------------------------------------------------------------
// Time
// ---------------------------------------------------------------------------

fn time(work: impl FnOnce() -> u64) -> (Duration, u64) {
    let start = Instant::now();
    let sum = work();
    (start.elapsed(), sum)
}

/// A table, each of whose lines is measured in so many rounds.
struct Table {
    rounds: usize,
}

impl Table {
    /// Prints the first line.
    fn begin(rounds: usize) -> Table {
        println!(
            "{:<42} {:>12} {:>12} {:>6}",
            "", "ours/s", "Rust/s", "ratio"
        );
        Table { rounds }
    }

    /// Runs both sides in turn and prints a line: how much a second each does in its best
    /// round, and the ratio. The sums that they return must be equal, so that both have
    /// done the same.
    fn measure(&self, name: &str, work: f64, ours: impl Fn() -> u64, theirs: impl Fn() -> u64) {
        let mut best = (Duration::MAX, Duration::MAX);
        for _ in 0..self.rounds {
            let (our_time, our_sum) = time(&ours);
            let (their_time, their_sum) = time(&theirs);
            assert_eq!(our_sum, their_sum, "{name}: the two sides differ");
            best = (best.0.min(our_time), best.1.min(their_time));
        }
        let rate = |took: Duration| work / took.as_secs_f64();
        let (ours, theirs) = (rate(best.0), rate(best.1));
        let ratio = ours / theirs;
        let (ours, theirs) = (in_figures(ours), in_figures(theirs));
        println!("{name:<42} {ours:>12} {theirs:>12} {ratio:>6.2}");
    }
}

/// A rate with three figures at least.
fn in_figures(rate: f64) -> String {
    let decimals = (2.0 - rate.log10().floor()).max(0.0) as usize;
    format!("{rate:.decimals$}")
}

// ---------------------------------------------------------------------------
// Transfers
// ---------------------------------------------------------------------------

const TRANSFERS: usize = 20_000;
const PASSES: usize = 10;

/// What a board sends to a panel of two lines: half of it data, the rest addresses,
/// status and data reads, and instructions. Each waits the 40 of the one before it.
fn operation(chance: &mut Chance) -> Transfer {
    let any = chance.byte();
    let (kind, byte) = match chance.below(20) {
        0..=9 => (DATA_WRITE, any),
        10..=12 => (STATUS_READ, 0x00),
        13..=14 => (DATA_READ, 0x00),
        15..=16 => (
            INSTRUCTION_WRITE,
            0x80 | chance.pick(&[0x00, 0x40]) | (any % 40),
        ),
        17 => (INSTRUCTION_WRITE, 0x40 | any & 0x3F),
        18 => (INSTRUCTION_WRITE, 0x10 | any & 0x0F),
        _ => (INSTRUCTION_WRITE, chance.pick(&[0x04, 0x08]) | any & 0x03),
    };
    (kind, byte, 40)
}

/// So many transfers over eight wires; one in twenty comes too early.
fn over_eight_wires() -> Vec<Transfer> {
    let mut chance = Chance::new(SEED, 8);
    (0..TRANSFERS)
        .map(|_| {
            let (kind, byte, wait) = operation(&mut chance);
            (kind, byte, if chance.percent(5) { 10 } else { wait })
        })
        .collect()
}

/// The like over four wires, each in two halves.
fn over_four_wires() -> Vec<Transfer> {
    let mut chance = Chance::new(SEED, 4);
    let halves = |(kind, byte, wait): Transfer| [(kind, byte & 0xF0, wait), (kind, byte << 4, 1)];
    (0..TRANSFERS / 2)
        .flat_map(|_| halves(operation(&mut chance)))
        .collect()
}

/// A panel of two lines, this wide, not busy.
fn start(width: u8) -> Record {
    Record {
        width,
        n: true,
        d: true,
        busy: 0,
        ..model::record_after_reset(USUAL_KHZ)
    }
}

/// Sends the transfers, again and again, through the calls over bytes.
#[inline(always)]
fn send(calls: &impl Calls, start: Record, transfers: &[Transfer]) -> u64 {
    let mut record = record_bytes(&start);
    let mut memory = [0x20; MEMORY];
    let mut sum = 0;
    for _ in 0..PASSES {
        for &(kind, byte, wait) in black_box(transfers) {
            sum += u64::from(calls.transfer(&mut record, &mut memory, kind, byte, wait));
        }
    }
    black_box(memory);
    sum
}

/// The same on the model's own record, without bytes.
fn send_without_bytes(start: Record, transfers: &[Transfer]) -> u64 {
    let mut record = start;
    let mut memory = [0x20; MEMORY];
    let mut sum = 0;
    for _ in 0..PASSES {
        for &(kind, byte, wait) in black_box(transfers) {
            let (answer, read, new) = model::transfer(record, &mut memory, kind, byte, wait);
            record = new;
            sum += u64::from(answer) + 256 * u64::from(read);
        }
    }
    black_box(memory);
    sum
}

fn measure_transfers(table: &Table) {
    let work = (TRANSFERS * PASSES) as f64;
    for (width, transfers) in [(8, over_eight_wires()), (4, over_four_wires())] {
        let start = start(width);
        let ours = || send(&Library, start, &transfers);
        let name = format!("transfers, {width} bits");
        table.measure(&name, work, ours, || send(&MODEL, start, &transfers));
        let name = format!("  beside the model without bytes, {width} bits");
        table.measure(&name, work, ours, || send_without_bytes(start, &transfers));
    }
}

// ---------------------------------------------------------------------------
// Pictures, plans and lines
// ---------------------------------------------------------------------------

const PANELS: usize = 64;
const PICTURES: usize = 6_400;

/// Panels of two lines that are on, with a cursor on some visible cell or on none.
fn panels() -> Vec<([u8; RECORD_BYTES], Vec<u8>)> {
    let mut chance = Chance::new(SEED, 2);
    let mut panel = || {
        let record = Record {
            n: true,
            d: true,
            half: Half::None,
            ..sound_record(&mut chance)
        };
        (record_bytes(&record), whole_memory(&mut chance))
    };
    (0..PANELS).map(|_| panel()).collect()
}

#[inline(always)]
fn draw(calls: &impl Calls, panels: &[([u8; RECORD_BYTES], Vec<u8>)], panel: Panel) -> u64 {
    let mut out = vec![0; model::picture_bytes(&start(8), panel.size)];
    let mut sum = 0;
    for _ in 0..PICTURES / PANELS {
        for (record, memory) in black_box(panels) {
            let answer = calls.picture(record, memory, panel, 1, &mut out);
            sum += u64::from(answer) + u64::from(black_box(&out)[17]);
        }
    }
    sum
}

fn measure_pictures(table: &Table) {
    let panels = panels();
    for columns in [16, 20] {
        let panel = Panel::plain(columns, 2);
        table.measure(
            &format!("pictures, {columns} x 2"),
            PICTURES as f64,
            || draw(&Library, &panels, panel),
            || draw(&MODEL, &panels, panel),
        );
    }
}

const PLANS: usize = 2_000;

#[inline(always)]
fn plan(calls: &impl Calls, wish: &[u8], marks: &[u8]) -> u64 {
    let values = [0x41; MEMORY];
    let mut out = [0; PLAN_BYTES];
    let mut sum = 0;
    for _ in 0..PLANS {
        let planned = calls.plan(black_box(wish), black_box(marks), &values, &mut out);
        sum += u64::from(planned) + u64::from(black_box(&out)[60]);
    }
    sum
}

fn measure_plans(table: &Table) {
    let wish = wish_bytes(&Wish {
        n: true,
        d: true,
        id: true,
        cursor: 5,
        ..Wish::default()
    });
    // Two lines of sixteen; then every cell.
    let mut lines = [0; MEMORY];
    lines[..16].fill(1);
    lines[40..56].fill(1);
    for (name, marks) in [
        ("plans, two lines of 16 marked", lines),
        ("plans, all 144 marked", [1; MEMORY]),
    ] {
        table.measure(
            name,
            PLANS as f64,
            || plan(&Library, &wish, &marks),
            || plan(&MODEL, &wish, &marks),
        );
    }
}

#[inline(always)]
fn write_and_read(calls: &impl Calls, transfers: &[Transfer]) -> u64 {
    let mut line = [0; LINE_BYTES];
    let mut out = [0; TRANSFER_BYTES];
    let mut sum = 0;
    for &(kind, byte, wait) in black_box(transfers) {
        sum += u64::from(calls.write_line(kind, byte, wait * 1_000, &mut line));
        sum += u64::from(calls.read_line(black_box(&line), &mut out));
        sum += u64::from(black_box(out)[3]);
    }
    sum
}

fn measure_lines(table: &Table) {
    let transfers: Vec<Transfer> = [over_eight_wires(), over_four_wires()].concat();
    table.measure(
        "lines, written and read back",
        transfers.len() as f64,
        || write_and_read(&Library, &transfers),
        || write_and_read(&MODEL, &transfers),
    );
}

// ---------------------------------------------------------------------------
// Captures
// ---------------------------------------------------------------------------

/// The codes of scalars, shortest first: 94 of one character, then those of two.
fn code(number: usize) -> String {
    const CHARACTERS: usize = 94;
    let character = |number: usize| char::from(b'!' + (number % CHARACTERS) as u8);
    match number / CHARACTERS {
        0 => character(number).to_string(),
        more => [character(more - 1), character(number)].iter().collect(),
    }
}

/// The capture with so many other scalars, declared behind the lines, that change as often
/// as the lines do: in each pulse, before E goes up.
fn with_others(capture: &[u8], others: usize) -> Vec<u8> {
    let codes: Vec<String> = (SIGNALS.len()..).map(code).take(others).collect();
    let rise = format!("1{}\n", code(E)).into_bytes();
    let mut text = Vec::new();
    let mut level = 0;
    for line in capture.split_inclusive(|&byte| byte == b'\n') {
        if line == b"$upscope $end\n" {
            let declared = |code| format!("$var wire 1 {code} other{code} $end\n").into_bytes();
            text.extend(codes.iter().flat_map(declared));
        }
        if line == rise {
            let changed = |code| format!("{level}{code}\n").into_bytes();
            text.extend(codes.iter().flat_map(changed));
            level = 1 - level;
        }
        text.extend_from_slice(line);
    }
    text
}

/// A capture of at most so many bytes, up to a line's end: the transfers over eight wires,
/// again and again, and so many other scalars.
fn capture(bytes: usize, others: usize) -> Vec<u8> {
    // Stamps and changes have three bytes at least; E changes twice in a pulse.
    let pulse = 3 * (2 + SIGNALS.len() + 1 + others);
    let transfers = over_eight_wires().into_iter().cycle();
    let session: Vec<Transfer> = transfers.take(bytes / pulse + 1).collect();
    let mut text = with_others(&model::capture_of(&session, 0), others);
    text.truncate(bytes);
    let rest = text.iter().rev().take_while(|&&byte| byte != b'\n');
    text.truncate(text.len() - rest.count());
    text
}

fn sum_of(imported: Imported) -> u64 {
    let bytes = imported.out.iter().map(|&byte| u64::from(byte));
    bytes.sum::<u64>() + imported.length as u64
}

fn measure_captures(table: &Table, bytes: usize) {
    let size = bytes as f64 / 1e6;
    for (scalars, others) in [("eleven lines", 0), ("2,000 others", 2_000)] {
        let capture = capture(bytes, others);
        let imported = Import::with_room(&capture).run(&MODEL);
        let name = format!("captures of {size} MB, {scalars}, in MB");
        assert_eq!(imported.answer, model::DONE, "{name}: no whole capture");
        let work = capture.len() as f64 / 1e6;
        let room = imported.length;
        let import = Import { capture, room };
        table.measure(
            &name,
            work,
            || sum_of(black_box(&import).run(&Library)),
            || sum_of(black_box(&import).run(&MODEL)),
        );
    }
}

// ---------------------------------------------------------------------------
// Session programs
// ---------------------------------------------------------------------------

const SESSIONS: usize = 5;

/// A text of 65,536 bytes: 8,192 lines of eight, each with a wait of two digits.
fn session_text() -> Vec<u8> {
    let mut line = [0; LINE_BYTES];
    let mut text = Vec::new();
    for (kind, byte, wait) in over_eight_wires() {
        let (_, length) = model::write_line(kind, byte, wait, &mut line);
        text.extend_from_slice(&line[..length]);
    }
    text.truncate(SESSION_BYTES);
    text
}

/// Runs a program on the text, from file to file, so many times; how much it wrote.
fn play(program: &str, text: &Path, report: &Path) -> u64 {
    let failed = |error| {
        eprintln!("bench: {program}: {error}");
        exit(1)
    };
    let run = || {
        let status = Command::new(program)
            .stdin(File::open(text)?)
            .stdout(File::create(report)?)
            .status()?;
        assert!(status.success(), "{program} ended with {status}");
        fs::metadata(report).map(|file| file.len())
    };
    (0..SESSIONS).map(|_| run().unwrap_or_else(failed)).sum()
}

fn measure_sessions(table: &Table, program: &str, model_program: &str) {
    let folder = PathBuf::from(env!("CARGO_MANIFEST_DIR")).join("target");
    let text = folder.join("bench.session");
    let reports = [
        folder.join("bench.report"),
        folder.join("bench_model.report"),
    ];
    fs::write(&text, session_text()).expect("the text can be written");
    table.measure(
        "session programs, 65,536 bytes",
        SESSIONS as f64,
        || play(program, &text, &reports[0]),
        || play(model_program, &text, &reports[1]),
    );
    let [ours, theirs] = reports.map(|report| fs::read(report).expect("the report is there"));
    assert!(ours == theirs, "the two session programs differ");
}

/// Says how the program is called, and ends it.
fn refuse() -> ! {
    eprintln!("bench PROGRAM MODEL_PROGRAM [ROUNDS [CAPTURE_BYTES]]");
    exit(2)
}

/// A number above 0 of the command line, or the usual one.
fn number(named: Option<&String>, usual: usize) -> usize {
    let number = named.map_or(Ok(usual), |text| text.parse());
    number
        .ok()
        .filter(|&number| number > 0)
        .unwrap_or_else(|| refuse())
}

fn main() {
    let arguments: Vec<String> = env::args().skip(1).collect();
    let [program, model_program, numbers @ ..] = &arguments[..] else {
        refuse()
    };
    if numbers.len() > 2 {
        refuse();
    }
    let rounds = number(numbers.first(), ROUNDS);
    let capture_bytes = number(numbers.get(1), CAPTURE_BYTES);
    let table = Table::begin(rounds);
    measure_transfers(&table);
    measure_pictures(&table);
    measure_plans(&table);
    measure_lines(&table);
    measure_captures(&table, capture_bytes);
    measure_sessions(&table, program, model_program);
}
