//! The faults of a table: those after all lines, and those of a hand-made table.

use super::fault::{Fault, Refusal};
use super::table::*;

/// Faults 6 and 7, by line; the table has none of the faults before them.
pub fn late(t: &Table) -> Result<(), Refusal> {
    let mut line = 3;
    for &top in &t.tops[..t.task_count as usize] {
        let p = &t.procs[top as usize];
        if t.closed && p.drop != all_params(p.params) {
            return Err(Fault::Closed.at(line));
        }
        line += 1;
    }
    line += t.sem_count as u32 + t.queue_count as u32;
    for p in &t.procs[..t.proc_count as usize] {
        let present = if t.closed { p.present() } else { u32::MAX };
        line += 1;
        for node in p.used() {
            if *node == Node::Absent {
                continue;
            }
            if let Some(fault) = late_node(t, present, node) {
                return Err(fault.at(line));
            }
            line += 1;
        }
    }
    Ok(())
}

/// Fault 6 or 7 of a node.
#[inline]
fn late_node(t: &Table, present: u32, node: &Node) -> Option<Fault> {
    if let Node::Call { proc, count, .. } = *node {
        if count != t.procs[proc as usize].params {
            return Some(Fault::Arguments);
        }
    }
    if t.closed && (targets_of(node) & !present != 0 || !removed_right(t, node)) {
        return Some(Fault::Closed);
    }
    None
}

/// All targets of a node.
fn targets_of(node: &Node) -> Arc {
    match *node {
        Node::Start { to }
        | Node::Set { to, .. }
        | Node::Read { to, .. }
        | Node::Call { to, .. }
        | Node::Wait { to, .. }
        | Node::Signal { to, .. }
        | Node::Send { to, .. }
        | Node::Recv { to, .. }
        | Node::Assert { to, .. }
        | Node::Out { to, .. } => to,
        Node::Test { yes, no, .. } => yes | no,
        Node::Absent | Node::Return => 0,
    }
}

/// Whether `-` stands where it has to and nowhere else.
fn removed_right(t: &Table, node: &Node) -> bool {
    match *node {
        Node::Send { queue, var, .. } | Node::Recv { queue, var, .. } => {
            (var == GONE) == t.queues[queue as usize].blank
        }
        Node::Call {
            proc, count, args, ..
        } => {
            let drop = t.procs[proc as usize].drop;
            let given = &args[..count as usize];
            (given.iter().enumerate()).all(|(i, &arg)| (arg == GONE) == (drop >> i & 1 == 1))
        }
        _ => true,
    }
}

/// The fault of a hand-made table, with line 0: what the reader says of the lines it stands for,
/// then 2 for an unused place that is not 0.
pub fn check(t: &Table) -> Result<(), Refusal> {
    lines(t).map_err(|fault| fault.at(0))?;
    late(t).map_err(|refusal| Refusal { line: 0, ..refusal })?;
    require(unused_clear(t), Fault::Form).map_err(|fault| fault.at(0))
}

/// The faults met line by line, in the order of the lines.
fn lines(t: &Table) -> Result<(), Fault> {
    let counts = (1..=TASKS).contains(&(t.task_count as usize))
        && (1..=PROCS).contains(&(t.proc_count as usize))
        && t.sem_count as usize <= SEMS
        && t.queue_count as usize <= QUEUES;
    require(counts, Fault::Range)?;
    for &top in &t.tops[..t.task_count as usize] {
        require(top < t.proc_count, Fault::Reference)?;
    }
    for queue in &t.queues[..t.queue_count as usize] {
        require((1..=8).contains(&queue.cap), Fault::Range)?;
    }
    for i in 0..t.proc_count as usize {
        procedure(t, i)?;
    }
    Ok(())
}

fn procedure(t: &Table, i: usize) -> Result<(), Fault> {
    let p = &t.procs[i];
    let sizes = p.params as usize <= PARAMS
        && (p.params as usize..=VARS).contains(&(p.vars as usize))
        && (2..=NODES).contains(&(p.count as usize));
    require(sizes, Fault::Range)?;
    let declared = p.drop & !all_params(p.params) == 0;
    require(!t.closed || declared, Fault::Reference)?;
    for (j, node) in p.used().iter().enumerate() {
        if *node == Node::Absent {
            if t.closed && j > 0 {
                continue;
            }
            return Err(missing(t, i, j));
        }
        let (start, read) = (
            matches!(node, Node::Start { .. }),
            matches!(node, Node::Read { .. }),
        );
        require(!(t.closed && read), Fault::Form)?;
        require(start == (j == 0), Fault::Index)?;
        fields(t, p, node)?;
    }
    Ok(())
}

/// The fault of a node that is due and missing, by what stands instead of its line: a later node's
/// line, the next procedure's or the end.
fn missing(t: &Table, i: usize, j: usize) -> Fault {
    let later = t.procs[i].used()[j..].iter().any(|n| *n != Node::Absent);
    let last = i + 1 == t.proc_count as usize;
    match (later, last) {
        (true, _) => Fault::Index,
        (false, false) => Fault::Form,
        (false, true) => Fault::End,
    }
}

/// The fields of a node, left to right.
fn fields(t: &Table, p: &Proc, node: &Node) -> Result<(), Fault> {
    let variable = |v: u8| require(v < p.vars, Fault::Reference);
    let maybe = |v: u8| match v {
        GONE => require(t.closed, Fault::Misspelt),
        _ => variable(v),
    };
    let operand = |o: Operand| match o {
        Operand::Var(v) => variable(v),
        Operand::Const(_) => Ok(()),
    };
    let arc = |to: Arc| {
        require(t.closed || to.count_ones() == 1, Fault::Misspelt)?;
        require(to & !p.targets() == 0, Fault::Reference)
    };
    match *node {
        Node::Absent | Node::Return => Ok(()),
        Node::Start { to } => arc(to),
        Node::Set { var, a, b, to, .. } => {
            variable(var)?;
            operand(a)?;
            operand(b)?;
            arc(to)
        }
        Node::Test { op, a, b, yes, no } => {
            require(op.compares(), Fault::Form)?;
            operand(a)?;
            operand(b)?;
            arc(yes)?;
            arc(no)
        }
        Node::Read { var, to } => {
            variable(var)?;
            arc(to)
        }
        Node::Call {
            proc,
            count,
            args,
            to,
        } => {
            require(proc < t.proc_count, Fault::Reference)?;
            let given = &args[..(count as usize).min(PARAMS)];
            let spelt = t.closed || given.iter().all(|&v| v != GONE);
            require(spelt, Fault::Misspelt)?;
            // arguments behind the fourth repeat it
            for &v in given {
                maybe(v)?;
            }
            arc(to)
        }
        Node::Wait { sem, to } | Node::Signal { sem, to } => {
            require(sem < t.sem_count, Fault::Reference)?;
            arc(to)
        }
        Node::Send { queue, var, to } | Node::Recv { queue, var, to } => {
            require(queue < t.queue_count, Fault::Reference)?;
            maybe(var)?;
            arc(to)
        }
        Node::Assert { var, to } | Node::Out { var, to } => {
            maybe(var)?;
            arc(to)
        }
    }
}

/// Whether every place at or beyond a count is 0, and `drop` and `blank` in an open table.
fn unused_clear(t: &Table) -> bool {
    let none = Queue::default();
    let procs = &t.procs[..t.proc_count as usize];
    t.tops[t.task_count as usize..].iter().all(|&x| x == 0)
        && t.sems[t.sem_count as usize..].iter().all(|&x| x == 0)
        && t.queues[t.queue_count as usize..]
            .iter()
            .all(|q| *q == none)
        && t.procs[t.proc_count as usize..]
            .iter()
            .all(|p| *p == Proc::default())
        && procs.iter().all(|p| {
            let after = &p.nodes[p.count as usize..];
            after.iter().all(|n| *n == Node::Absent) && p.used().iter().all(args_clear)
        })
        && (t.closed || t.queues.iter().all(|q| !q.blank) && procs.iter().all(|p| p.drop == 0))
}

fn args_clear(node: &Node) -> bool {
    match *node {
        Node::Call { count, args, .. } => {
            args[(count as usize).min(PARAMS)..].iter().all(|&x| x == 0)
        }
        _ => true,
    }
}

fn require(holds: bool, fault: Fault) -> Result<(), Fault> {
    if holds {
        Ok(())
    } else {
        Err(fault)
    }
}
