//! What the programs print: the closed text, the report of a run, and what an exploration finds.

use super::close::close_valid;
use super::explore::{explore_valid, Exploration, Found, Step};
use super::fault::Refusal;
use super::read::read_first;
use super::run::{run_valid, Answer, State, ENTRY};
use super::table::*;
use super::write::{constant, write_valid, Buffer, Sink};

/// What the closing program prints for a text, and its length.
pub fn close_text(text: &[u8], out: &mut [u8]) -> usize {
    let (mut open, mut closed) = (Table::default(), Table::default());
    let done = read_first(text, &mut open)
        .and_then(|()| close_valid(&open, &mut closed))
        .and_then(|()| write_valid(&closed, out));
    done.unwrap_or_else(|refusal| print_refusal(refusal, out))
}

/// Reads a text.
pub fn read_text(text: &[u8]) -> Result<(), Refusal> {
    read_first(text, &mut Table::default())
}

/// Reads a text and writes its table.
pub fn write_text(text: &[u8], out: &mut [u8]) -> Result<usize, Refusal> {
    let mut table = Table::default();
    read_first(text, &mut table)?;
    write_valid(&table, out)
}

/// Reads a text and runs its table, with no report.
pub fn steps_text(
    text: &[u8],
    schedule: &[u8],
    values: &[i32],
    most: usize,
    log: &mut [u8],
) -> Result<Answer, Refusal> {
    let (mut table, mut state) = (Table::default(), State::default());
    read_first(text, &mut table)?;
    Ok(run_valid(&table, schedule, values, most, log, &mut state))
}

/// The bytes of a log that a run with a report uses.
pub const LOG: usize = 800_000;

/// What the `run` program prints for a text, and its length.
pub fn run_text(
    text: &[u8],
    schedule: &[u8],
    values: &[i32],
    most: usize,
    log: &mut [u8],
    out: &mut [u8],
) -> usize {
    let (mut table, mut state) = (Table::default(), State::default());
    if let Err(refusal) = read_first(text, &mut table) {
        return print_refusal(refusal, out);
    }
    let used = log.len().min(LOG);
    let log = &mut log[..used];
    let answer = run_valid(&table, schedule, values, most, log, &mut state);
    let mut s = Buffer { out, len: 0 };
    print_answer(&answer, log, &mut s);
    print_state(&table, &state, &mut s);
    s.len
}

/// What the `explore` program prints for a text, and its length.
pub fn explore_text(text: &[u8], depth: usize, bound: u64, out: &mut [u8]) -> usize {
    let mut table = Table::default();
    let explored = read_first(text, &mut table).and_then(|()| explore_valid(&table, depth, bound));
    match explored {
        Ok(exploration) => print_exploration(&table, &exploration, out),
        Err(refusal) => print_refusal(refusal, out),
    }
}

fn print_refusal(refusal: Refusal, out: &mut [u8]) -> usize {
    let mut s = Buffer { out, len: 0 };
    field(&mut s, b"refused=", refusal.number as u32);
    field(&mut s, b" line=", refusal.line);
    s.put(b"\n");
    s.len
}

fn print_answer(answer: &Answer, log: &[u8], s: &mut Buffer) {
    field(s, b"steps=", answer.steps as u32);
    field(s, b" used=", answer.used as u32);
    field(s, b" stop=", answer.stop as u32);
    s.put(b"\n");
    for (i, entry) in log.chunks_exact(ENTRY).take(answer.steps).enumerate() {
        print_step(i, entry, s);
        s.put(b"\n");
    }
}

/// A step's line but for its end.
fn print_step(i: usize, entry: &[u8], s: &mut Buffer) {
    field(s, b"step=", i as u32);
    field(s, b" task=", entry[0] as u32);
    field(s, b" proc=", entry[1] as u32);
    field(s, b" node=", entry[2] as u32);
    field(s, b" flag=", entry[3] as u32);
    s.put(b" value=");
    let value = [entry[4], entry[5], entry[6], entry[7]];
    constant(s, i32::from_le_bytes(value));
}

/// The path that was found and the state it leads to.
fn print_exploration(table: &Table, exploration: &Exploration, out: &mut [u8]) -> usize {
    let Exploration {
        found,
        path,
        tried,
        state,
    } = exploration;
    let mut s = Buffer { out, len: 0 };
    let found = match found {
        Found::None => {
            s.put(format!("found=none tried={tried}\n").as_bytes());
            return s.len;
        }
        Found::Standstill => "standstill",
        Found::Failure => "failure",
    };
    let steps = path.len();
    s.put(format!("found={found} steps={steps} tried={tried}\n").as_bytes());
    for (i, Step { entry, toss }) in path.iter().enumerate() {
        print_step(i, entry, &mut s);
        match toss {
            Some(toss) => field(&mut s, b" toss=", *toss as u32),
            None => s.put(b" toss=none"),
        }
        s.put(b"\n");
    }
    print_state(table, state, &mut s);
    s.len
}

fn print_state(t: &Table, state: &State, s: &mut Buffer) {
    for (i, task) in state.tasks[..t.task_count as usize].iter().enumerate() {
        field(s, b"task=", i as u32);
        field(s, b" frames=", task.depth as u32);
        match task.lost {
            true => s.put(b" lost=yes\n"),
            false => s.put(b" lost=no\n"),
        }
        for (j, frame) in task.frames[..task.depth as usize].iter().enumerate() {
            field(s, b"frame=", j as u32);
            field(s, b" proc=", frame.proc as u32);
            field(s, b" node=", frame.node as u32);
            let vars = t.procs[frame.proc as usize].vars as usize;
            values(s, b" vars=", frame.vars[..vars].iter().copied());
        }
    }
    for (i, &count) in state.sems[..t.sem_count as usize].iter().enumerate() {
        field(s, b"sem=", i as u32);
        field(s, b" count=", count as u32);
        s.put(b"\n");
    }
    for (i, queue) in state.queues[..t.queue_count as usize].iter().enumerate() {
        field(s, b"queue=", i as u32);
        values(s, b" entries=", queue.iter());
    }
}

fn field(s: &mut Buffer, key: &[u8], n: u32) {
    s.put(key);
    s.number(n);
}

/// Values by commas, or `none`, to the line's end.
fn values(s: &mut Buffer, key: &[u8], items: impl Iterator<Item = i32>) {
    s.put(key);
    let mut some = false;
    for value in items {
        if some {
            s.put(b",");
        }
        constant(s, value);
        some = true;
    }
    match some {
        true => s.put(b"\n"),
        false => s.put(b"none\n"),
    }
}
