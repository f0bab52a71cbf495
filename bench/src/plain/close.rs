//! The closer: dirty settings by a worklist over bit masks, then the kept nodes and their arcs.

use super::check;
use super::fault::{Fault, Refusal};
use super::table::*;

/// What is dirty: variable v as bit v, parameter i as bit i, queue q as bit q.
pub struct Dirt {
    /// The variables with a dirty setting that reaches a node.
    pub reach: [[u16; NODES]; PROCS],
    pub drop: [u8; PROCS],
    pub blank: u8,
}

/// Closes a table into another place; a refusal leaves that place all 0.
pub fn close(open: &Table, closed: &mut Table) -> Result<(), Refusal> {
    let refused = check::check(open).and_then(|()| close_valid(open, closed));
    if refused.is_err() {
        *closed = Table::default();
    }
    refused
}

/// The same for a table that is known to be valid.
pub fn close_valid(open: &Table, closed: &mut Table) -> Result<(), Refusal> {
    if open.closed {
        *closed = Table::default();
        return Err(Fault::OtherForm.at(0));
    }
    let dirt = analyse(open);
    closed.clone_from(open);
    closed.closed = true;
    for (q, queue) in closed.queues.iter_mut().enumerate() {
        queue.blank = dirt.blank >> q & 1 == 1;
    }
    for (i, p) in closed.procs[..open.proc_count as usize]
        .iter_mut()
        .enumerate()
    {
        close_procedure(p, &dirt, i);
    }
    Ok(())
}

/// The kept nodes of each procedure of a valid open table.
pub fn kept_nodes(t: &Table) -> [u32; PROCS] {
    let dirt = analyse(t);
    let mut kept = [0; PROCS];
    for (i, p) in t.procs[..t.proc_count as usize].iter().enumerate() {
        kept[i] = kept_of(p, &dirt.reach[i]);
    }
    kept
}

/// The nodes still to be visited, and what a visit can wake.
struct Work<'a> {
    table: &'a Table,
    dirt: Dirt,
    pending: [u32; PROCS],
    /// The receiving nodes of each queue in each procedure.
    receivers: [[u32; PROCS]; QUEUES],
}

/// The least solution for a valid open table.
pub fn analyse(t: &Table) -> Dirt {
    let mut work = Work {
        table: t,
        dirt: Dirt {
            reach: [[0; NODES]; PROCS],
            drop: [0; PROCS],
            blank: 0,
        },
        pending: [0; PROCS],
        receivers: [[0; PROCS]; QUEUES],
    };
    work.begin();
    while let Some(p) = work.pending.iter().position(|&nodes| nodes != 0) {
        work.procedure(p);
    }
    work.dirt
}

impl Work<'_> {
    /// What is dirty from the first: reads, and the parameters of tops.
    fn begin(&mut self) {
        for (i, p) in self.table.procs[..self.table.proc_count as usize]
            .iter()
            .enumerate()
        {
            for (j, node) in p.used().iter().enumerate() {
                match *node {
                    Node::Read { .. } => self.pending[i] |= 1 << j,
                    Node::Recv { queue, .. } => self.receivers[queue as usize][i] |= 1 << j,
                    _ => {}
                }
            }
        }
        for &top in &self.table.tops[..self.table.task_count as usize] {
            let params = all_params(self.table.procs[top as usize].params);
            self.drop_params(top as usize, params);
        }
    }

    fn drop_params(&mut self, proc: usize, params: u8) {
        if params & !self.dirt.drop[proc] != 0 {
            self.dirt.drop[proc] |= params;
            self.dirt.reach[proc][0] |= params as u16;
            self.pending[proc] |= 1;
        }
    }

    fn blank_queue(&mut self, queue: u8) {
        if self.dirt.blank >> queue & 1 == 0 {
            self.dirt.blank |= 1 << queue;
            for (pending, nodes) in self.pending.iter_mut().zip(self.receivers[queue as usize]) {
                *pending |= nodes;
            }
        }
    }

    /// Visits the pending nodes of a procedure, along each chain as far as it leads.
    fn procedure(&mut self, p: usize) {
        let nodes = &self.table.procs[p].nodes;
        while self.pending[p] != 0 {
            let mut j = self.pending[p].trailing_zeros() as usize;
            loop {
                self.pending[p] &= !(1 << j);
                let before = self.dirt.reach[p][j];
                let (after, to, other) = self.visit(&nodes[j], before);
                if other != 0 {
                    self.flow(p, other, after);
                }
                if to == 0 || !self.flow(p, to, after) {
                    break;
                }
                j = to.trailing_zeros() as usize;
            }
        }
    }

    /// Adds dirt at the one target of an arc; whether something was new there.
    #[inline]
    fn flow(&mut self, p: usize, to: Arc, dirt: u16) -> bool {
        let place = &mut self.dirt.reach[p][to.trailing_zeros() as usize];
        let new = dirt & !*place != 0;
        if new {
            *place |= dirt;
            self.pending[p] |= to;
        }
        new
    }

    /// The dirt behind a node, and its arcs.
    #[inline]
    fn visit(&mut self, node: &Node, before: u16) -> (u16, Arc, Arc) {
        match *node {
            Node::Set { var, a, b, to, .. } => {
                let dirty = before & (a.uses() | b.uses()) != 0;
                (after_setting(before, var, dirty), to, 0)
            }
            Node::Read { var, to } => (after_setting(before, var, true), to, 0),
            Node::Recv { queue, var, to } => {
                let dirty = self.dirt.blank >> queue & 1 == 1;
                (after_setting(before, var, dirty), to, 0)
            }
            Node::Test { yes, no, .. } => (before, yes, no),
            Node::Send { queue, var, to } => {
                if before >> var & 1 == 1 {
                    self.blank_queue(queue);
                }
                (before, to, 0)
            }
            Node::Call {
                proc,
                count,
                args,
                to,
            } => {
                let mut dirty = 0;
                for (i, &arg) in args[..count as usize].iter().enumerate() {
                    dirty |= ((before >> arg & 1) as u8) << i;
                }
                self.drop_params(proc as usize, dirty);
                (before, to, 0)
            }
            Node::Start { to }
            | Node::Wait { to, .. }
            | Node::Signal { to, .. }
            | Node::Assert { to, .. }
            | Node::Out { to, .. } => (before, to, 0),
            Node::Absent | Node::Return => (before, 0, 0),
        }
    }
}

#[inline]
fn after_setting(before: u16, var: u8, dirty: bool) -> u16 {
    (before & !(1 << var)) | (dirty as u16) << var
}

/// The nodes that are kept: all but `read`, and `set` or `test` with a dirty use.
fn kept_of(p: &Proc, reach: &[u16; NODES]) -> u32 {
    let mut kept = 0;
    for (j, node) in p.used().iter().enumerate() {
        let keeps = match *node {
            Node::Read { .. } => false,
            Node::Set { a, b, .. } | Node::Test { a, b, .. } => {
                reach[j] & (a.uses() | b.uses()) == 0
            }
            _ => true,
        };
        kept |= (keeps as u32) << j;
    }
    kept
}

/// Closes a procedure in place.
fn close_procedure(p: &mut Proc, dirt: &Dirt, i: usize) {
    let reach = &dirt.reach[i];
    let kept = kept_of(p, reach);
    let past = past_dropped(p, kept);
    p.drop = dirt.drop[i];
    for (j, node) in p.nodes[..p.count as usize].iter_mut().enumerate() {
        if kept >> j & 1 == 0 {
            *node = Node::Absent;
            continue;
        }
        match node {
            Node::Absent | Node::Return | Node::Read { .. } => {}
            Node::Start { to }
            | Node::Set { to, .. }
            | Node::Wait { to, .. }
            | Node::Signal { to, .. } => lead(to, &past),
            Node::Test { yes, no, .. } => {
                lead(yes, &past);
                lead(no, &past);
            }
            Node::Call { proc, args, to, .. } => {
                for k in bits(dirt.drop[*proc as usize] as u32) {
                    args[k] = GONE;
                }
                lead(to, &past);
            }
            Node::Send { queue, var, to } | Node::Recv { queue, var, to } => {
                if dirt.blank >> *queue & 1 == 1 {
                    *var = GONE;
                }
                lead(to, &past);
            }
            Node::Assert { var, to } | Node::Out { var, to } => {
                if reach[j] >> *var & 1 == 1 {
                    *var = GONE;
                }
                lead(to, &past);
            }
        }
    }
}

/// Replaces the one target of an arc by the kept nodes it leads to.
#[inline]
fn lead(to: &mut Arc, past: &[u32; NODES]) {
    *to = past[to.trailing_zeros() as usize];
}

/// For each node as a target, the kept nodes reached through nodes that are not kept.
fn past_dropped(p: &Proc, kept: u32) -> [u32; NODES] {
    let mut past: [u32; NODES] = std::array::from_fn(|j| 1 << j);
    let dropped = !kept & (u32::MAX >> (32 - p.count as u32));
    for j in bits(dropped) {
        past[j] = match p.nodes[j] {
            Node::Read { to, .. } | Node::Set { to, .. } => to,
            Node::Test { yes, no, .. } => yes | no,
            _ => 0,
        };
    }
    for k in bits(dropped) {
        let through = past[k];
        for j in bits(dropped) {
            if past[j] >> k & 1 == 1 {
                past[j] |= through;
            }
        }
    }
    for j in bits(dropped) {
        past[j] &= kept;
    }
    past
}
