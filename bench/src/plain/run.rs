//! The runner: one machine for open and closed tables, over a borrowed table.

use super::check;
use super::close::kept_nodes;
use super::fault::{Fault, Refusal};
use super::table::*;

pub const FRAMES: usize = 8;

/// The bytes that a completed step logs.
pub const ENTRY: usize = 8;

/// An open call: its procedure, the node before which it stands (or its call), its variables.
#[derive(Clone, Copy, Debug, Default, PartialEq, Eq)]
pub struct Frame {
    pub proc: u8,
    pub node: u8,
    pub vars: [i32; VARS],
}

#[derive(Clone, Copy, Debug, Default, PartialEq, Eq)]
pub struct Task {
    pub depth: u8,
    pub lost: bool,
    pub frames: [Frame; FRAMES],
}

/// The entries of a queue, the oldest at `first`, in a ring.
#[derive(Clone, Copy, Debug, Default, PartialEq, Eq)]
pub struct Entries {
    pub first: u8,
    pub len: u8,
    pub ring: [i32; 8],
}

#[derive(Clone, Debug, Default, PartialEq, Eq)]
pub struct State {
    pub tasks: [Task; TASKS],
    pub sems: [u8; SEMS],
    pub queues: [Entries; QUEUES],
}

/// What a run answers, beside its state and its log: the steps completed, the values used, and the
/// number of the fault that stopped it, or 0.
#[derive(Clone, Copy, Debug, Default, PartialEq, Eq)]
pub struct Answer {
    pub steps: usize,
    pub used: usize,
    pub stop: u8,
}

/// Runs a table along a schedule.
pub fn run(
    table: &Table,
    schedule: &[u8],
    values: &[i32],
    most: usize,
    log: &mut [u8],
    state: &mut State,
) -> Answer {
    if let Err(Refusal { number, .. }) = check::check(table) {
        *state = State::default();
        return Answer {
            stop: number,
            ..Answer::default()
        };
    }
    run_valid(table, schedule, values, most, log, state)
}

/// The same for a table that is known to be valid.
pub fn run_valid(
    table: &Table,
    schedule: &[u8],
    values: &[i32],
    most: usize,
    log: &mut [u8],
    state: &mut State,
) -> Answer {
    if table.closed {
        Machine::<true>::new(table, values, most).run(schedule, log, state)
    } else {
        Machine::<false>::new(table, values, most).run(schedule, log, state)
    }
}

impl Entries {
    #[inline]
    fn oldest(&self) -> i32 {
        self.ring[self.first as usize & 7]
    }

    #[inline]
    fn remove(&mut self) {
        self.first = self.first.wrapping_add(1) & 7;
        self.len -= 1;
    }

    #[inline]
    fn append(&mut self, value: i32) {
        self.ring[(self.first + self.len) as usize & 7] = value;
        self.len += 1;
    }

    /// The entries from the oldest on.
    pub fn iter(&self) -> impl Iterator<Item = i32> + '_ {
        (0..self.len).map(|i| self.ring[(self.first + i) as usize & 7])
    }
}

/// A table ready to be stepped, with its values.
pub struct Machine<'a, const CLOSED: bool> {
    table: &'a Table,
    kept: [u32; PROCS],
    values: &'a [i32],
    most: usize,
    pub used: usize,
}

impl<'a, const CLOSED: bool> Machine<'a, CLOSED> {
    pub fn new(table: &'a Table, values: &'a [i32], most: usize) -> Self {
        Machine {
            table,
            kept: if CLOSED {
                [u32::MAX; PROCS]
            } else {
                kept_nodes(table)
            },
            values,
            most,
            used: 0,
        }
    }

    fn run(mut self, schedule: &[u8], log: &mut [u8], state: &mut State) -> Answer {
        let mut answer = Answer::default();
        if let Err(fault) = self.start(state) {
            answer.stop = fault.number();
            return answer;
        }
        let mut places = log.chunks_exact_mut(ENTRY);
        for &task in schedule {
            if let Err(fault) = self.step(state, task, places.next()) {
                answer.stop = fault.number();
                break;
            }
            answer.steps += 1;
        }
        answer.used = self.used;
        answer
    }

    /// Makes the first state.
    pub fn start(&mut self, state: &mut State) -> Result<(), Fault> {
        *state = State::default();
        state.sems = self.table.sems;
        let tops = &self.table.tops[..self.table.task_count as usize];
        for (task, &top) in state.tasks.iter_mut().zip(tops) {
            task.depth = 1;
            task.frames[0].proc = top;
        }
        if CLOSED {
            return Ok(());
        }
        let params = |&top: &u8| self.table.procs[top as usize].params as usize;
        if tops.iter().map(params).sum::<usize>() > self.values.len() {
            return Err(Fault::Spent);
        }
        for (task, top) in state.tasks.iter_mut().zip(tops) {
            let count = params(top);
            let given = &self.values[self.used..self.used + count];
            task.frames[0].vars[..count].copy_from_slice(given);
            self.used += count;
        }
        Ok(())
    }

    /// One step of a task, logged at a place; a stopped step changes nothing.
    #[inline(always)]
    pub fn step(
        &mut self,
        state: &mut State,
        number: u8,
        place: Option<&mut [u8]>,
    ) -> Result<(), Fault> {
        if number >= self.table.task_count {
            return Err(Fault::NoTask);
        }
        let place = place.ok_or(Fault::Log)?;
        let State {
            tasks,
            sems,
            queues,
        } = state;
        let Task {
            depth,
            lost,
            frames,
        } = &mut tasks[number as usize % TASKS];
        if *lost {
            return Err(Fault::Lost);
        }
        let (below, rest) = frames.split_at_mut(*depth as usize - 1);
        let (frame, above) = rest.split_first_mut().ok_or(Fault::Blocked)?;
        let (proc, node) = (frame.proc, frame.node);
        let mut shown = None;
        match self.table.procs[proc as usize % PROCS].nodes[node as usize % NODES] {
            Node::Start { to } => self.go_on(frame, lost, to, None)?,
            Node::Set { var, op, a, b, to } => {
                let value = op.apply(a.value(&frame.vars), b.value(&frame.vars));
                self.go_on(frame, lost, to, Some((var, value)))?;
            }
            Node::Test { op, a, b, yes, no } => {
                let holds = op.apply(a.value(&frame.vars), b.value(&frame.vars)) != 0;
                self.go_on(frame, lost, if holds { yes } else { no }, None)?;
            }
            Node::Wait { sem, to } => {
                let count = &mut sems[sem as usize % SEMS];
                if *count == 0 {
                    return Err(Fault::Blocked);
                }
                self.go_on(frame, lost, to, None)?;
                *count -= 1;
            }
            Node::Signal { sem, to } => {
                let count = &mut sems[sem as usize % SEMS];
                if *count == u8::MAX {
                    return Err(Fault::Blocked);
                }
                self.go_on(frame, lost, to, None)?;
                *count += 1;
            }
            Node::Send { queue, var, to } => {
                let entries = &mut queues[queue as usize % QUEUES];
                if entries.len >= self.table.queues[queue as usize % QUEUES].cap {
                    return Err(Fault::Blocked);
                }
                let value = value_of(frame, var).unwrap_or(0);
                self.go_on(frame, lost, to, None)?;
                entries.append(value);
            }
            Node::Recv { queue, var, to } => {
                let entries = &mut queues[queue as usize % QUEUES];
                if entries.len == 0 {
                    return Err(Fault::Blocked);
                }
                let write = (var != GONE).then(|| (var, entries.oldest()));
                self.go_on(frame, lost, to, write)?;
                entries.remove();
            }
            Node::Assert { var, to } | Node::Out { var, to } => {
                shown = value_of(frame, var);
                self.go_on(frame, lost, to, None)?;
            }
            Node::Call {
                proc: callee,
                count,
                args,
                ..
            } => {
                let new = above.first_mut().ok_or(Fault::Blocked)?;
                enter(new, callee, &args[..count as usize], frame);
                *depth += 1;
            }
            Node::Return => {
                let caller = below.last_mut().ok_or(Fault::Blocked)?;
                let to = self.call_arc(caller);
                self.go_on(caller, lost, to, None)?;
                *depth -= 1;
            }
            Node::Read { .. } | Node::Absent => return Err(Fault::Blocked),
        }
        log_entry(place, [number, proc, node], shown);
        Ok(())
    }

    /// The arc of the call at which a frame stands.
    #[inline]
    fn call_arc(&self, caller: &Frame) -> Arc {
        match self.table.procs[caller.proc as usize % PROCS].nodes[caller.node as usize % NODES] {
            Node::Call { to, .. } => to,
            _ => 0,
        }
    }

    /// Takes an arc of a frame after an own setting; a stop leaves the frame as it was.
    #[inline(always)]
    fn go_on(
        &mut self,
        frame: &mut Frame,
        lost: &mut bool,
        arc: Arc,
        write: Option<(u8, i32)>,
    ) -> Result<(), Fault> {
        let target = if CLOSED {
            self.toss(arc)?
        } else {
            let target = arc.trailing_zeros();
            if self.kept[frame.proc as usize % PROCS] >> (target % 32) & 1 == 0 {
                return self.through_dropped(frame, target, write);
            }
            target
        };
        if let Some((var, value)) = write {
            frame.vars[var as usize % VARS] = value;
        }
        if target < NODES as u32 {
            frame.node = target as u8;
        } else {
            frame.node = 0;
            *lost = true;
        }
        Ok(())
    }

    /// The target of a closed arc; 32 where it has none.
    #[inline]
    fn toss(&mut self, mut arc: Arc) -> Result<u32, Fault> {
        if arc & arc.wrapping_sub(1) != 0 {
            let value = *self.values.get(self.used).ok_or(Fault::Spent)?;
            if value < 0 || value as u32 >= arc.count_ones() {
                return Err(Fault::Toss);
            }
            for _ in 0..value {
                arc &= arc - 1;
            }
            self.used += 1;
        }
        Ok(arc.trailing_zeros())
    }

    /// Executes dropped nodes of a frame until a kept one is met.
    fn through_dropped(
        &mut self,
        frame: &mut Frame,
        target: u32,
        write: Option<(u8, i32)>,
    ) -> Result<(), Fault> {
        let p = &self.table.procs[frame.proc as usize];
        let kept = self.kept[frame.proc as usize];
        let mut vars = frame.vars;
        if let Some((var, value)) = write {
            vars[var as usize] = value;
        }
        let (mut at, mut used) = (target, self.used);
        for _ in 0..self.most {
            let to = match p.nodes[at as usize] {
                Node::Read { var, to } => {
                    vars[var as usize] = *self.values.get(used).ok_or(Fault::Spent)?;
                    used += 1;
                    to
                }
                Node::Set { var, op, a, b, to } => {
                    vars[var as usize] = op.apply(a.value(&vars), b.value(&vars));
                    to
                }
                Node::Test { op, a, b, yes, no } => {
                    match op.apply(a.value(&vars), b.value(&vars)) {
                        0 => no,
                        _ => yes,
                    }
                }
                _ => break,
            };
            at = to.trailing_zeros();
            if kept >> at & 1 == 1 {
                frame.vars = vars;
                frame.node = at as u8;
                self.used = used;
                return Ok(());
            }
        }
        Err(Fault::Dropped)
    }
}

/// Opens a frame of a callee; an argument `-` leaves its parameter at 0.
#[inline]
fn enter(new: &mut Frame, callee: u8, args: &[u8], caller: &Frame) {
    new.proc = callee;
    new.node = 0;
    new.vars = [0; VARS];
    for (place, &arg) in new.vars.iter_mut().zip(args) {
        *place = value_of(caller, arg).unwrap_or(0);
    }
}

/// The value of a variable that was not removed.
#[inline]
fn value_of(frame: &Frame, var: u8) -> Option<i32> {
    frame.vars.get(var as usize).copied()
}

/// Writes the 8 bytes of a step: task, procedure, node, flag, value.
#[inline]
fn log_entry(place: &mut [u8], head: [u8; 3], shown: Option<i32>) {
    let [task, proc, node] = head;
    let first = u32::from_le_bytes([task, proc, node, shown.is_some() as u8]);
    let value = shown.unwrap_or(0) as u32;
    let entry = first as u64 | (value as u64) << 32;
    place.copy_from_slice(&entry.to_le_bytes());
}
