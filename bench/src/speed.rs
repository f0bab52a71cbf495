//! Measures the proved library and plain Rust side by side.

use crate::generate::extremes::{self, LongRun, MOST};
use crate::generate::lines_of;
use crate::plain::explore::DEPTH;
use crate::plain::programs::{close_text, explore_text, read_text, steps_text, write_text};
use crate::plain::table::Table;
use crate::proved;
use std::hint::black_box;
use std::time::{Duration, Instant};

/// How often all rows are gone through, so that a neighbour that slows the core for a while can't slow all rounds of a row.
const PASSES: usize = 8;

/// How often each side of a row is measured in a pass; the best of all counts.
const ROUNDS: usize = 10;

/// How long one measurement of short calls lasts.
const LASTS: Duration = Duration::from_millis(5);

/// The steps of a long run.
const STEPS: usize = 1_000_000;

/// The steps tried in a search, which needs more.
const TRIED: usize = 500_000;

/// The steps of short runs.
const SHORT: [usize; 3] = [1, 10, 100];

/// Texts that are refused on their first line: an empty one, one that begins with a wrong word, one with a wrong form.
const REFUSED: [(&str, &[u8]); 3] = [
    ("an empty text", b""),
    ("a wrong first word", b"table=1 form=open\n"),
    ("a wrong form", b"trap=1 form=shut\n"),
];

/// The table of README.
const EXAMPLE: &[u8] = include_bytes!("../../crates/close/stdin");

/// Closed tables that are explored: three tasks that share a bus, that call a procedure, that jam after 21 steps.
const TABLES: [(&str, &[u8]); 3] = [
    ("bus", include_bytes!("../tables/bus.txt")),
    ("history", include_bytes!("../tables/history.txt")),
    ("jam", include_bytes!("../tables/jam.txt")),
];

/// What is measured: the seconds that one side takes, the proved one or plain Rust, and the best so far. Both sides work on the
/// same text and buffer.
struct Row<'a> {
    name: String,
    unit: &'static str,
    shown: fn(f64, usize) -> f64,
    size: usize,
    seconds: Box<dyn FnMut(bool) -> f64 + 'a>,
    best_proved: f64,
    best_plain: f64,
}

/// Prints the measurements whose names begin with a word.
pub fn speed(word: &str) {
    if !proved::LINKED {
        println!("the proved libraries are not linked: plain Rust against itself");
    }
    let runs = match "step".starts_with(word) {
        true => extremes::long_runs(STEPS),
        false => Vec::new(),
    };
    let mut rows = Vec::new();
    if "read".starts_with(word) {
        for (name, table) in [
            ("open", extremes::longest_open()),
            ("closed", extremes::longest_closed()),
        ] {
            rows.push(reading(name, lines_of(&table)));
            rows.push(writing(name, lines_of(&table)));
        }
        rows.extend(example().map(|(name, text)| reading(&format!("the example, {name}"), text)));
    }
    if "close".starts_with(word) {
        rows.extend(closings().map(|(name, table)| closing(name, lines_of(&table))));
        rows.push(closing("the example", EXAMPLE.to_vec()));
    }
    if "refuse".starts_with(word) {
        rows.extend(REFUSED.map(|(name, text)| refusing(name, text)));
    }
    rows.extend(runs.iter().map(steps));
    if "short".starts_with(word) {
        for (name, text) in example() {
            rows.extend(SHORT.map(|n| short(name, text.clone(), n)));
        }
    }
    if "explore".starts_with(word) {
        rows.extend(searches().map(|(name, text)| searching(name, text)));
    }
    for _ in 0..PASSES {
        rows.iter_mut().for_each(Row::measure);
    }
    println!("{:<44}{:>12}{:>12}{:>8}", "", "proved", "plain", "ratio");
    rows.iter().for_each(Row::print);
}

/// Does what is measured once, by one side, to count its instructions.
pub fn once(by_proved: bool, word: &str) {
    let mut out = vec![0; 1 << 16];
    if "read".starts_with(word) {
        for table in [extremes::longest_open(), extremes::longest_closed()] {
            let text = lines_of(&table);
            match by_proved {
                true => _ = black_box((proved::read(&text), proved::write(&text, &mut out))),
                false => _ = black_box((read_text(&text), write_text(&text, &mut out))),
            }
        }
        for (_, text) in example() {
            match by_proved {
                true => _ = black_box(proved::read(&text)),
                false => _ = black_box(read_text(&text)),
            }
        }
    }
    if "close".starts_with(word) {
        for (_, table) in closings() {
            let text = lines_of(&table);
            match by_proved {
                true => _ = black_box(proved::close(&text, &mut out)),
                false => _ = black_box(close_text(&text, &mut out)),
            }
        }
        match by_proved {
            true => _ = black_box(proved::close(EXAMPLE, &mut out)),
            false => _ = black_box(close_text(EXAMPLE, &mut out)),
        }
    }
    if "refuse".starts_with(word) {
        for (_, text) in REFUSED {
            match by_proved {
                true => _ = black_box(proved::read(text)),
                false => _ = black_box(read_text(text)),
            }
        }
    }
    if "short".starts_with(word) {
        for (_, text) in example() {
            let mut log = [0; 8];
            match by_proved {
                true => _ = black_box(proved::steps(&text, &[0], &[50], MOST, &mut log)),
                false => _ = black_box(steps_text(&text, &[0], &[50], MOST, &mut log)),
            }
        }
    }
    if "explore".starts_with(word) {
        for (_, text) in searches() {
            match by_proved {
                true => _ = black_box(proved::explore(&text, DEPTH, TRIED as u64, &mut out)),
                false => _ = black_box(explore_text(&text, DEPTH, TRIED as u64, &mut out)),
            }
        }
    }
    if "step".starts_with(word) {
        let mut log = vec![0; STEPS * 8];
        for run in extremes::long_runs(STEPS) {
            let text = lines_of(&run.table);
            let (schedule, values) = (&run.schedule, &run.values);
            match by_proved {
                true => _ = black_box(proved::steps(&text, schedule, values, MOST, &mut log)),
                false => _ = black_box(steps_text(&text, schedule, values, MOST, &mut log)),
            }
        }
    }
}

/// The tables that are closed, with their names.
fn closings() -> impl Iterator<Item = (&'static str, Table)> {
    let longest = ("the longest open text", extremes::longest_open());
    extremes::hard().into_iter().chain([longest])
}

/// Reading a text.
fn reading(name: &str, text: Vec<u8>) -> Row<'static> {
    let size = text.len();
    let name = format!("read {name}, {size} bytes");
    Row::of_calls(name, "MB/s", megabytes, size, move |by_proved| {
        let text = black_box(&text);
        match by_proved {
            true => _ = black_box(proved::read(text)),
            false => _ = black_box(read_text(text)),
        }
    })
}

/// Reading a text and writing its table.
fn writing(name: &str, text: Vec<u8>) -> Row<'static> {
    let size = text.len();
    let name = format!("read and write {name}, {size} bytes");
    let mut out = vec![0; 1 << 16];
    Row::of_calls(name, "MB/s", megabytes, size, move |by_proved| {
        let text = black_box(&text);
        match by_proved {
            true => _ = black_box(proved::write(text, &mut out)),
            false => _ = black_box(write_text(text, &mut out)),
        }
    })
}

/// Closing, from text to text.
fn closing(name: &str, text: Vec<u8>) -> Row<'static> {
    let name = format!("close {name}");
    let mut out = vec![0; 1 << 16];
    Row::of_calls(
        name,
        "µs",
        |s, _| s * 1e6,
        1,
        move |by_proved| {
            let text = black_box(&text);
            match by_proved {
                true => _ = black_box(proved::close(text, &mut out)),
                false => _ = black_box(close_text(text, &mut out)),
            }
        },
    )
}

/// Refusing a text.
fn refusing(name: &str, text: &'static [u8]) -> Row<'static> {
    let name = format!("refuse {name}");
    Row::of_calls(
        name,
        "ns",
        |s, _| s * 1e9,
        1,
        move |by_proved| {
            let text = black_box(text);
            let refused = match by_proved {
                true => proved::read(text).is_err(),
                false => read_text(text).is_err(),
            };
            assert!(refused, "the text is refused");
        },
    )
}

/// The steps of a long run.
fn steps(run: &LongRun) -> Row<'_> {
    let text = lines_of(&run.table);
    let mut log = vec![0; STEPS * 8];
    let name = format!("step, {}", run.name);
    Row::new(
        name,
        "ns",
        |s, n| s * 1e9 / n as f64,
        STEPS,
        move |by_proved| {
            let (schedule, values) = (&run.schedule, &run.values);
            let start = Instant::now();
            let completed = match by_proved {
                true => proved::steps(&text, schedule, values, MOST, &mut log) == Ok((STEPS, 0)),
                false => steps_text(&text, schedule, values, MOST, &mut log)
                    .is_ok_and(|a| a.steps == STEPS && a.stop == 0),
            };
            let seconds = start.elapsed().as_secs_f64();
            assert!(completed, "the run completes");
            seconds
        },
    )
}

/// The table of README, in both forms.
fn example() -> [(&'static str, Vec<u8>); 2] {
    let mut closed = vec![0; 1 << 16];
    let len = close_text(EXAMPLE, &mut closed);
    closed.truncate(len);
    [("open", EXAMPLE.to_vec()), ("closed", closed)]
}

/// A run of so many steps, from the text: the sensor answers 50, and every toss is 0, so that task 0 goes round.
fn short(name: &str, text: Vec<u8>, steps: usize) -> Row<'static> {
    let name = format!("run from its text, {name}, steps: {steps}");
    let schedule = vec![0; steps];
    let mut values = vec![0; steps + 1];
    values[0] = if text == EXAMPLE { 50 } else { 0 };
    let mut log = vec![0; steps * 8];
    Row::of_calls(
        name,
        "ns",
        |s, _| s * 1e9,
        1,
        move |by_proved| {
            let text = black_box(&text);
            let completed = match by_proved {
                true => proved::steps(text, &schedule, &values, MOST, &mut log) == Ok((steps, 0)),
                false => steps_text(text, &schedule, &values, MOST, &mut log)
                    .is_ok_and(|a| a.steps == steps && a.stop == 0),
            };
            assert!(completed, "the run completes");
        },
    )
}

/// The tables that are explored, and the closed tables of long runs.
fn searches() -> impl Iterator<Item = (&'static str, Vec<u8>)> {
    let tables = TABLES.into_iter().map(|(name, text)| (name, text.to_vec()));
    tables.chain(extremes::closed_tables().map(|(name, table)| (name, lines_of(&table))))
}

/// The steps tried in a search to the greatest depth, which ends at its bound.
fn searching(name: &str, text: Vec<u8>) -> Row<'static> {
    let name = format!("explore, {name}");
    let mut out = vec![0; 1 << 16];
    Row::new(
        name,
        "ns",
        |s, n| s * 1e9 / n as f64,
        TRIED,
        move |by_proved| {
            let start = Instant::now();
            let len = match by_proved {
                true => proved::explore(&text, DEPTH, TRIED as u64, &mut out),
                false => explore_text(&text, DEPTH, TRIED as u64, &mut out),
            };
            let seconds = start.elapsed().as_secs_f64();
            assert!(out[..len].starts_with(b"refused=18 "), "the bound is met");
            seconds
        },
    )
}

fn megabytes(seconds: f64, bytes: usize) -> f64 {
    bytes as f64 / seconds / 1e6
}

impl<'a> Row<'a> {
    fn new(
        name: String,
        unit: &'static str,
        shown: fn(f64, usize) -> f64,
        size: usize,
        seconds: impl FnMut(bool) -> f64 + 'a,
    ) -> Self {
        Row {
            name,
            unit,
            shown,
            size,
            seconds: Box::new(seconds),
            best_proved: f64::MAX,
            best_plain: f64::MAX,
        }
    }

    /// A row of short calls, of which as many are made as last long enough to be measured.
    fn of_calls(
        name: String,
        unit: &'static str,
        shown: fn(f64, usize) -> f64,
        size: usize,
        mut call: impl FnMut(bool) + 'a,
    ) -> Self {
        let calls = calls_lasting(&mut || call(false));
        let seconds = move |by_proved| time(calls, &mut || call(by_proved));
        Self::new(name, unit, shown, size, seconds)
    }

    /// Measures the two sides in turn.
    fn measure(&mut self) {
        for _ in 0..ROUNDS {
            self.best_proved = self.best_proved.min((self.seconds)(true));
            self.best_plain = self.best_plain.min((self.seconds)(false));
        }
    }

    fn print(&self) {
        let shown = |s| format!("{:.1} {}", (self.shown)(s, self.size), self.unit);
        println!(
            "{:<44}{:>12}{:>12}{:>8.2}",
            self.name,
            shown(self.best_proved),
            shown(self.best_plain),
            self.best_proved / self.best_plain
        );
    }
}

/// How many calls last long enough to be measured.
fn calls_lasting(call: &mut impl FnMut()) -> usize {
    let mut calls = 1;
    while time(calls, call) * (calls as f64) < LASTS.as_secs_f64() {
        calls *= 2;
    }
    calls
}

/// Seconds per call.
fn time(calls: usize, call: &mut impl FnMut()) -> f64 {
    let start = Instant::now();
    for _ in 0..calls {
        call();
    }
    start.elapsed().as_secs_f64() / calls as f64
}
