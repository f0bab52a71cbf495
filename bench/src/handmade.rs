//! Hand-made tables: the plain check against the plain reader of the lines they stand for.

use crate::generate::{lines_of, tables};
use crate::plain::check::check;
use crate::plain::close::close;
use crate::plain::explore::explore;
use crate::plain::fault::{Fault, Refusal};
use crate::plain::read::read;
use crate::plain::run::{run, State};
use crate::plain::table::*;
use crate::plain::write::write;
use crate::random::Random;

/// Checks so many tables from a seed on; whether none is judged otherwise than its lines.
pub fn handmade(cases: u64, seed: u64) -> bool {
    let mut numbers = [0u64; Fault::LAST.number() as usize + 1];
    let mut differ = 0;
    for case_seed in seed..seed.wrapping_add(cases) {
        let mut r = Random::new(case_seed);
        let size = tables::Size::random(&mut r);
        let mut table = tables::any(size, &mut r);
        for _ in 0..r.below(4) {
            change(&mut table, &mut r);
        }
        let expected = number_of_lines(&table);
        numbers[expected as usize] += 1;
        if !calls_agree(&table, expected) {
            differ += 1;
            println!("differs: seed {case_seed}, expected {expected}");
        }
    }
    for (number, times) in numbers.iter().enumerate() {
        if *times > 0 {
            println!("number={number} met={times}");
        }
    }
    println!("tables={cases} differ={differ}");
    differ == 0
}

/// The number that a table's lines get, then 2 for an unused place that is not 0.
fn number_of_lines(table: &Table) -> u8 {
    let mut again = Table::default();
    match read(&lines_of(table), &mut again) {
        Err(refusal) => refusal.number,
        Ok(()) if again != *table => Fault::Form.number(),
        Ok(()) => 0,
    }
}

/// Whether each call first refuses a table by the number, with line 0, and alters nothing.
fn calls_agree(table: &Table, number: u8) -> bool {
    let judged = |result: Result<(), Refusal>| match result {
        Ok(()) => 0,
        Err(refusal) if refusal.line == 0 => refusal.number,
        Err(_) => u8::MAX,
    };
    let mut out = vec![1; 1 << 16];
    let (mut closed, mut state) = (table.clone(), State::default());
    state.sems[7] = 1;
    let mut log = [1; 16];
    let closing = judged(close(table, &mut closed));
    let written = judged(write(table, &mut out).map(|_| ()));
    let answer = run(table, &[0], &[], 0, &mut log, &mut state);
    let explored = judged(explore(table, usize::MAX, 0).map(|_| ()));
    if number == 0 {
        let (other, depth) = (Fault::OtherForm.number(), Fault::Depth.number());
        let due = match table.closed {
            true => (other, depth),
            false => (0, other),
        };
        return judged(check(table)) == 0 && (closing, explored) == due && written == 0;
    }
    judged(check(table)) == number
        && (closing, written) == (number, number)
        && (answer.stop, explored) == (number, number)
        && (answer.steps, answer.used) == (0, 0)
        && closed == Table::default()
        && state == State::default()
        && log == [1; 16]
        && out.iter().all(|&b| b == 1)
}

/// Changes one field of a table.
fn change(t: &mut Table, r: &mut Random) {
    let i = r.below(PROCS);
    match r.below(15) {
        0 => {
            let value = r.pick(&[0, 1, 2, 4, 5, 8, 9, 255]);
            let counts = [
                &mut t.task_count,
                &mut t.proc_count,
                &mut t.sem_count,
                &mut t.queue_count,
            ];
            let at = r.below(counts.len());
            for (i, count) in counts.into_iter().enumerate() {
                if i == at {
                    *count = value;
                }
            }
        }
        1 => t.tops[r.below(TASKS)] = r.below(9) as u8,
        2 => t.sems[r.below(SEMS)] = r.next() as u8,
        3 => t.queues[r.below(QUEUES)].cap = r.below(10) as u8,
        4 => t.queues[r.below(QUEUES)].blank ^= true,
        5 => t.procs[i].drop ^= 1 << r.below(5),
        6 => t.procs[i].params = r.below(6) as u8,
        7 => t.procs[i].vars = r.below(18) as u8,
        8 => t.procs[i].count = r.below(34) as u8,
        9 => t.closed ^= r.once_in(3),
        10 => {
            let i = r.below(t.proc_count.clamp(1, 8) as usize);
            let count = t.procs[i].count.clamp(1, 32) as usize;
            t.procs[i].nodes[r.below(count)..].fill(Node::Absent);
        }
        _ => {
            let i = r.below(t.proc_count.clamp(1, 8) as usize);
            let count = t.procs[i].count.clamp(1, 31) as usize;
            let node = &mut t.procs[i].nodes[r.below(count + 1)];
            change_node(node, r);
        }
    }
}

fn change_node(node: &mut Node, r: &mut Random) {
    let any_var = r.pick(&[0, 1, 2, 5, 15, 16, 200, GONE]);
    let many = r.next() as u32;
    let any_arc = r.pick(&[0, 1, 2, 4, 6, 1 << 31, 3 << 30, many]);
    if r.once_in(6) {
        let to = any_arc;
        *node = r.pick(&[
            Node::Absent,
            Node::Start { to },
            Node::Read { var: any_var, to },
            Node::Return,
        ]);
    }
    match node {
        Node::Absent | Node::Return => {}
        Node::Start { to } => *to = any_arc,
        Node::Set { var, a, to, .. } => match r.below(3) {
            0 => *var = any_var,
            1 => *a = Operand::Var(any_var),
            _ => *to = any_arc,
        },
        Node::Test { op, b, yes, no, .. } => match r.below(4) {
            0 => *op = r.pick(&[Op::Add, Op::Shr, Op::Eq]),
            1 => *b = Operand::Var(any_var),
            2 => *yes = any_arc,
            _ => *no = any_arc,
        },
        Node::Call {
            proc,
            count,
            args,
            to,
        } => match r.below(4) {
            0 => *proc = r.below(9) as u8,
            1 => *count = r.below(7) as u8,
            2 => args[r.below(PARAMS)] = any_var,
            _ => *to = any_arc,
        },
        Node::Wait { sem: item, to } | Node::Signal { sem: item, to } => match r.below(2) {
            0 => *item = r.below(9) as u8,
            _ => *to = any_arc,
        },
        Node::Send { queue, var, to } | Node::Recv { queue, var, to } => match r.below(3) {
            0 => *queue = r.below(9) as u8,
            1 => *var = any_var,
            _ => *to = any_arc,
        },
        Node::Read { var, to } | Node::Assert { var, to } | Node::Out { var, to } => {
            match r.below(2) {
                0 => *var = any_var,
                _ => *to = any_arc,
            }
        }
    }
}
