//! Comparison of the proved libraries with the plain implementation on generated cases.

use crate::generate::explorations::Limits;
use crate::generate::{self, extremes, Case, Kind, KINDS};
use crate::plain::explore::DEPTH;
use crate::plain::fault::{Fault, Refusal};
use crate::plain::programs::{close_text, explore_text, run_text, steps_text, write_text, LOG};
use crate::plain::read::read;
use crate::plain::run::ENTRY;
use crate::plain::table::Table;
use crate::proved;
use crate::random::Random;
use crate::vectors::Words;
use std::panic::{catch_unwind, AssertUnwindSafe};
use std::time::Instant;

/// How many differences are named.
const NAMED: usize = 10;

/// What unused bytes of a buffer hold.
const FILL: u8 = 0xa5;

/// How many bytes a buffer has behind what is printed, mostly.
const BEHIND: usize = 16;

/// The steps of a run that fills the longest log.
const STEPS: usize = 100_500;

/// The bound of a search of a table for long runs.
const BOUND: u64 = 100_000;

/// The count of cases, of numbers met, and the seeds of cases that differ.
#[derive(Default)]
struct Tally {
    kinds: [u64; KINDS.len()],
    accepted: [u64; KINDS.len()],
    numbers: [u64; Fault::LAST.number() as usize + 1],
    runs: u64,
    completed: u64,
    steps: u64,
    explored: Explored,
    differ: u64,
    named: Vec<String>,
}

/// The count of explorations of accepted texts, by what they found, and of the steps tried in these.
#[derive(Clone, Copy, Default)]
struct Explored {
    all: u64,
    standstills: u64,
    failures: u64,
    none: u64,
    tried: u64,
}

/// Buffers of one thread, a pair for the two sides.
struct Buffers {
    table: Table,
    out: [Vec<u8>; 2],
    log: [Vec<u8>; 2],
}

impl Buffers {
    /// Buffers with room for reports of so many bytes.
    fn new(room: usize) -> Self {
        Buffers {
            table: Table::default(),
            out: [vec![FILL; room], vec![FILL; room]],
            log: [Vec::new(), Vec::new()],
        }
    }
}

/// Compares so many cases from a seed on, all cuts of a few texts, and the extremes; whether nothing
/// differs.
pub fn compare(cases: u64, seed: u64) -> bool {
    let start = Instant::now();
    let threads = std::thread::available_parallelism().map_or(1, usize::from) as u64;
    let mut tally = Tally::default();
    if cases > 1 {
        every_cut(seed, &mut tally);
        every_extreme(seed, &mut tally);
    }
    let parts = std::thread::scope(|scope| {
        let handles: Vec<_> = (0..threads)
            .map(|part| scope.spawn(move || stride(cases, seed, part, threads)))
            .collect();
        handles
            .into_iter()
            .map(|handle| handle.join().expect("a thread ends"))
            .collect::<Vec<_>>()
    });
    for part in parts {
        tally.add(part);
    }
    tally.print(start.elapsed().as_secs_f64());
    tally.differ == 0
}

/// The cases of one thread.
fn stride(cases: u64, seed: u64, part: u64, threads: u64) -> Tally {
    let mut tally = Tally::default();
    let mut buffers = Buffers::new(1 << 18);
    let mut i = part;
    while i < cases {
        let case_seed = seed.wrapping_add(i);
        let one = AssertUnwindSafe(|| {
            let case = generate::case(case_seed);
            tally.case(&case, &mut buffers, || format!("seed {case_seed}"));
        });
        if catch_unwind(one).is_err() {
            tally.differs(format!("seed {case_seed} (panic)"));
        }
        i += threads;
    }
    tally
}

/// Every cut of a few texts, open and closed, and each with another last byte.
fn every_cut(seed: u64, tally: &mut Tally) {
    let mut r = Random::new(seed);
    let mut buffers = Buffers::new(1 << 18);
    use generate::tables::{closed, closing, open, Size};
    let tables = [
        open(Size::Small, &mut r),
        closed(Size::Small, &mut r),
        open(Size::Middle, &mut r),
        closing(Size::Middle, &mut r),
    ];
    for (i, table) in tables.iter().enumerate() {
        let text = generate::lines_of(table);
        for len in 0..=text.len() {
            let cut = text[..len].to_vec();
            let mut wrong = cut.clone();
            if let Some(last) = wrong.last_mut() {
                *last = last.wrapping_add(r.pick(&[1, 2, 255]));
            }
            for text in [cut, wrong] {
                let case = generate::with_run(Kind::Cut, text, &mut r);
                tally.case(&case, &mut buffers, || {
                    format!("text {i} of seed {seed} cut at {len}")
                });
            }
        }
    }
}

/// The longest texts, the tables that are hard to close, and runs that fill the longest log, one byte
/// less, and a longer one.
fn every_extreme(seed: u64, tally: &mut Tally) {
    let mut r = Random::new(seed);
    let mut buffers = Buffers::new(1 << 23);
    let mut tables = extremes::hard();
    tables.push(("the longest open text", extremes::longest_open()));
    tables.push(("the longest closed text", extremes::longest_closed()));
    for (name, table) in tables {
        let case = generate::with_run(Kind::Full, generate::lines_of(&table), &mut r);
        tally.case(&case, &mut buffers, || format!("{name}, seed {seed}"));
    }
    for run in extremes::long_runs(STEPS) {
        let text = generate::lines_of(&run.table);
        let mut case = Case {
            kind: Kind::Full,
            room: text.len(),
            text,
            words: Words {
                schedule: run.schedule,
                values: run.values,
                most: extremes::MOST,
                log: LOG,
            },
            limits: Limits {
                depth: DEPTH,
                bound: BOUND,
            },
        };
        for len in [LOG - 1, LOG, STEPS * ENTRY] {
            case.words.log = len;
            tally.case(&case, &mut buffers, || {
                format!("long run: {}, log of {len} bytes", run.name)
            });
        }
    }
}

/// Prints a case and what both sides say of it.
pub fn show(seed: u64) {
    let case = generate::case(seed);
    println!("kind={:?} bytes={}", case.kind, case.text.len());
    println!("{}", String::from_utf8_lossy(&case.text));
    let words = &case.words;
    println!(
        "schedule={:?} values={:?} most={} log={} room={}",
        words.schedule, words.values, words.most, words.log, case.room
    );
    let Limits { depth, bound } = case.limits;
    println!("depth={depth} bound={bound}");
    let mut out = vec![FILL; 1 << 18];
    let mut log = vec![FILL; words.log];
    println!("plain read: {:?}", read(&case.text, &mut Table::default()));
    println!("proved read: {:?}", proved::read(&case.text));
    for (side, close) in [
        ("plain", close_text as fn(&[u8], &mut [u8]) -> usize),
        ("proved", proved::close),
    ] {
        let len = close(&case.text, &mut out);
        println!("{side} close:\n{}", String::from_utf8_lossy(&out[..len]));
    }
    for (side, run) in [("plain", run_text as Run), ("proved", proved::run)] {
        let len = run(
            &case.text,
            &words.schedule,
            &words.values,
            words.most,
            &mut log,
            &mut out,
        );
        println!("{side} run:\n{}", String::from_utf8_lossy(&out[..len]));
    }
    for (side, explore) in [
        ("plain", explore_text as Explore),
        ("proved", proved::explore),
    ] {
        let len = explore(&case.text, depth, bound, &mut out);
        println!("{side} explore:\n{}", String::from_utf8_lossy(&out[..len]));
    }
}

type Run = fn(&[u8], &[u8], &[i32], usize, &mut [u8], &mut [u8]) -> usize;

type Explore = fn(&[u8], usize, u64, &mut [u8]) -> usize;

impl Tally {
    /// Compares one case and counts it.
    fn case(&mut self, case: &Case, buffers: &mut Buffers, name: impl Fn() -> String) {
        let at = KINDS
            .iter()
            .position(|(kind, ..)| *kind == case.kind)
            .unwrap_or(0);
        self.kinds[at] += 1;
        let expected = read(&case.text, &mut buffers.table);
        self.accepted[at] += expected.is_ok() as u64;
        self.count(number_of(&expected));
        let mut wrong = Vec::new();
        if proved::read(&case.text) != expected {
            wrong.push("read");
        }
        if !self.write_same(case, buffers) {
            wrong.push("write");
        }
        if !self.close_same(case, buffers) {
            wrong.push("close");
        }
        if !self.run_same(case, expected, buffers) {
            wrong.push("run");
        }
        if !self.explore_same(case, expected, buffers) {
            wrong.push("explore");
        }
        if !wrong.is_empty() {
            self.differs(format!("{} ({})", name(), wrong.join(", ")));
        }
    }

    fn differs(&mut self, name: String) {
        self.differ += 1;
        if self.named.len() < NAMED {
            self.named.push(name);
        }
    }

    fn count(&mut self, number: u8) {
        self.numbers[number as usize] += 1;
    }

    /// The written text and the bytes around it; an accepted text is written as it was read.
    fn write_same(&mut self, case: &Case, buffers: &mut Buffers) -> bool {
        let [mine, other] = &mut buffers.out;
        let (mine, other) = (&mut mine[..case.room], &mut other[..case.room]);
        mine.fill(FILL);
        other.fill(FILL);
        let expected = write_text(&case.text, mine);
        if expected.is_err_and(|refusal| refusal.is(Fault::Buffer)) {
            self.count(Fault::Buffer.number());
        }
        if let Ok(len) = expected {
            if mine[..len] != case.text {
                return false;
            }
        }
        proved::write(&case.text, other) == expected && mine == other
    }

    /// What is printed as far as the buffer reaches, and the bytes behind it.
    fn close_same(&mut self, case: &Case, buffers: &mut Buffers) -> bool {
        let [mine, other] = &mut buffers.out;
        let len = close_text(&case.text, mine);
        let [number, ..] = first_line(&mine[..len]);
        if mine.starts_with(b"refused=") && number == Fault::OtherForm.number() as u64 {
            self.count(Fault::OtherForm.number());
        }
        let other = &mut other[..room_for(len, case.room)];
        other.fill(FILL);
        proved::close(&case.text, other) == len && holds(other, &mine[..len])
    }

    /// The report as far as the buffer reaches, the bytes behind it and the whole log; then the
    /// same run with no report.
    fn run_same(
        &mut self,
        case: &Case,
        outcome: Result<(), Refusal>,
        buffers: &mut Buffers,
    ) -> bool {
        let Words {
            schedule,
            values,
            most,
            log: log_len,
        } = &case.words;
        let [mine, other] = &mut buffers.out;
        let [log, other_log] = &mut buffers.log;
        for log in [&mut *log, &mut *other_log] {
            log.clear();
            log.resize(*log_len, FILL);
        }
        let len = run_text(&case.text, schedule, values, *most, log, mine);
        let report = &mine[..len];
        let other = &mut other[..room_for(len, case.room)];
        other.fill(FILL);
        let other_len = proved::run(&case.text, schedule, values, *most, other_log, other);
        let same = other_len == len && holds(other, report) && log == other_log;
        if outcome.is_ok() {
            let [steps, _, stop] = first_line(report);
            self.runs += 1;
            self.completed += (stop == 0) as u64;
            self.steps += steps;
            self.count(stop as u8);
        }
        log.fill(FILL);
        other_log.fill(FILL);
        let expected = steps_text(&case.text, schedule, values, *most, log);
        let steps = proved::steps(&case.text, schedule, values, *most, other_log);
        same && steps == expected.map(|answer| (answer.steps, answer.stop)) && log == other_log
    }

    /// What is printed as far as the buffer reaches, and the bytes behind it.
    fn explore_same(
        &mut self,
        case: &Case,
        outcome: Result<(), Refusal>,
        buffers: &mut Buffers,
    ) -> bool {
        let Limits { depth, bound } = case.limits;
        let [mine, other] = &mut buffers.out;
        let len = explore_text(&case.text, depth, bound, mine);
        let report = &mine[..len];
        if outcome.is_ok() {
            self.explored(report);
        }
        let other = &mut other[..room_for(len, case.room)];
        other.fill(FILL);
        proved::explore(&case.text, depth, bound, other) == len && holds(other, report)
    }

    /// Counts the report of an exploration.
    fn explored(&mut self, report: &[u8]) {
        let [first, second, ..] = first_line(report);
        self.explored.all += 1;
        if report.starts_with(b"refused=") {
            self.count(first as u8);
        } else if report.starts_with(b"found=none ") {
            self.explored.none += 1;
            self.explored.tried += first;
        } else {
            let failed = report.starts_with(b"found=failure ");
            self.explored.failures += failed as u64;
            self.explored.standstills += !failed as u64;
            self.explored.tried += second;
        }
    }

    fn add(&mut self, other: Tally) {
        for (sum, n) in self.kinds.iter_mut().zip(other.kinds) {
            *sum += n;
        }
        for (sum, n) in self.accepted.iter_mut().zip(other.accepted) {
            *sum += n;
        }
        for (sum, n) in self.numbers.iter_mut().zip(other.numbers) {
            *sum += n;
        }
        self.runs += other.runs;
        self.completed += other.completed;
        self.steps += other.steps;
        self.explored.all += other.explored.all;
        self.explored.standstills += other.explored.standstills;
        self.explored.failures += other.explored.failures;
        self.explored.none += other.explored.none;
        self.explored.tried += other.explored.tried;
        self.differ += other.differ;
        self.named.extend(other.named);
        self.named.truncate(NAMED);
    }

    fn print(&self, seconds: f64) {
        for (i, (_, _, name)) in KINDS.iter().enumerate() {
            let (cases, accepted) = (self.kinds[i], self.accepted[i]);
            println!("kind={name} cases={cases} accepted={accepted}");
        }
        for (number, times) in self.numbers.iter().enumerate().skip(1) {
            println!("number={number} met={times}");
        }
        println!(
            "runs={} completed={} steps={}",
            self.runs, self.completed, self.steps
        );
        let Explored {
            all,
            standstills,
            failures,
            none,
            tried,
        } = self.explored;
        println!(
            "explorations={all} standstills={standstills} failures={failures} none={none} tried={tried}"
        );
        for name in &self.named {
            println!("differs: {name}");
        }
        if !proved::LINKED {
            println!("the proved libraries are not linked: plain Rust against itself");
        }
        let cases: u64 = self.kinds.iter().sum();
        println!("cases={cases} differ={} seconds={seconds:.1}", self.differ);
    }
}

/// The length of a buffer for so many bytes: mostly enough, else one short, cut anywhere or none.
/// The plain side, where it stands in, needs enough.
fn room_for(len: usize, any: usize) -> usize {
    match any % 8 {
        0 if proved::LINKED => len.saturating_sub(1),
        1 if proved::LINKED => any / 8 % (len + 1),
        2 if proved::LINKED => 0,
        3 => len,
        _ => len + BEHIND,
    }
}

/// Whether a buffer holds the bytes as far as it reaches, and behind them what it held before.
fn holds(buffer: &[u8], bytes: &[u8]) -> bool {
    let (front, behind) = buffer.split_at(bytes.len().min(buffer.len()));
    bytes.starts_with(front) && behind.iter().all(|&b| b == FILL)
}

fn number_of(outcome: &Result<(), Refusal>) -> u8 {
    outcome.map_or_else(|refusal| refusal.number, |()| 0)
}

/// The numbers of a report's first line: of a run the steps, the values used and the stop number.
fn first_line(report: &[u8]) -> [u64; 3] {
    let line = report.split(|&b| b == b'\n').next().unwrap_or_default();
    let mut numbers = line
        .split(|b| !b.is_ascii_digit())
        .filter(|word| !word.is_empty());
    [(); 3].map(|()| {
        let digits = numbers.next().unwrap_or_default();
        digits.iter().fold(0, |n, &d| n * 10 + (d - b'0') as u64)
    })
}
