//! Valid tables at random.

use crate::plain::close::close_valid;
use crate::plain::table::*;
use crate::random::Random;

/// How large a table gets.
#[derive(Clone, Copy, Debug, PartialEq, Eq)]
pub enum Size {
    Tiny,
    Small,
    Middle,
    Full,
}

impl Size {
    pub fn random(r: &mut Random) -> Self {
        match r.below(100) {
            0..=49 => Size::Tiny,
            50..=89 => Size::Small,
            90..=98 => Size::Middle,
            _ => Size::Full,
        }
    }

    /// The most tasks, procedures, semaphores or queues, variables, nodes.
    fn bounds(self) -> (usize, usize, usize, usize, usize) {
        match self {
            Size::Tiny => (2, 2, 2, 4, 7),
            Size::Small => (3, 3, 3, 6, 12),
            Size::Middle => (4, 5, 5, 12, 24),
            Size::Full => (4, 8, 8, 16, 32),
        }
    }
}

/// An open table, the closing of one, or a closed one.
pub fn any(size: Size, r: &mut Random) -> Table {
    match r.below(4) {
        0 => closing(size, r),
        1 => closed(size, r),
        _ => open(size, r),
    }
}

pub fn open(size: Size, r: &mut Random) -> Table {
    table(size, false, r)
}

pub fn closed(size: Size, r: &mut Random) -> Table {
    table(size, true, r)
}

pub fn closing(size: Size, r: &mut Random) -> Table {
    let open = open(size, r);
    let mut closed = Table::default();
    close_valid(&open, &mut closed).expect("an open table closes");
    closed
}

/// A small closed table whose tasks send and receive values that differ, with few tosses.
pub fn busy(r: &mut Random) -> Table {
    let mut t = Table {
        closed: true,
        task_count: r.within(2, 3) as u8,
        proc_count: r.within(1, 3) as u8,
        sem_count: 1,
        queue_count: r.within(1, 2) as u8,
        ..Table::default()
    };
    for top in &mut t.tops[..t.task_count as usize] {
        *top = r.below(t.proc_count as usize) as u8;
    }
    t.sems[0] = r.below(3) as u8;
    for queue in &mut t.queues[..t.queue_count as usize] {
        queue.cap = r.within(1, 4) as u8;
    }
    for p in &mut t.procs[..t.proc_count as usize] {
        p.vars = r.within(1, 2) as u8;
        p.count = r.within(3, 8) as u8;
    }
    with_nodes(t, |maker, j| maker.busy_node(j), r)
}

fn table(size: Size, closed: bool, r: &mut Random) -> Table {
    let t = frame_of(size, closed, r);
    with_nodes(t, |maker, j| maker.any_node(j), r)
}

/// Makes the nodes of all procedures.
fn with_nodes(mut t: Table, make: Make, r: &mut Random) -> Table {
    for i in 0..t.proc_count as usize {
        let mut p = t.procs[i];
        let mut maker = Maker {
            table: &t,
            proc: &p,
            present: present(&p, t.closed, r),
            random: r,
        };
        let nodes = maker.nodes(make);
        p.nodes = nodes;
        t.procs[i] = p;
    }
    t
}

/// A table's counts and lines, but for the nodes.
fn frame_of(size: Size, closed: bool, r: &mut Random) -> Table {
    let (tasks, procs, items, vars, nodes) = size.bounds();
    let full = size == Size::Full;
    let mut t = Table {
        closed,
        task_count: r.within(if full { tasks } else { 1 }, tasks) as u8,
        proc_count: r.within(if full { procs } else { 1 }, procs) as u8,
        sem_count: r.within(0, items) as u8,
        queue_count: r.within(0, items) as u8,
        ..Table::default()
    };
    for top in &mut t.tops[..t.task_count as usize] {
        *top = r.below(t.proc_count as usize) as u8;
    }
    for count in &mut t.sems[..t.sem_count as usize] {
        *count = r.pick(&[0, 1, 1, 2, 3, 9, 100, 254, 255]);
    }
    for queue in &mut t.queues[..t.queue_count as usize] {
        queue.cap = r.within(1, 8) as u8;
        queue.blank = closed && r.once_in(3);
    }
    for p in &mut t.procs[..t.proc_count as usize] {
        p.params = if r.once_in(2) {
            0
        } else {
            r.within(0, 4) as u8
        };
        p.vars = r.within(p.params as usize, vars.max(p.params as usize)) as u8;
        p.count = r.within(if full { 24 } else { 2 }, nodes) as u8;
        if closed {
            p.drop = r.next() as u8 & all_params(p.params);
        }
    }
    if closed {
        for &top in &t.tops[..t.task_count as usize] {
            let p = &mut t.procs[top as usize];
            p.drop = all_params(p.params);
        }
    }
    t
}

/// The nodes that a procedure gets: all, or some with node 0 in a closed table.
fn present(p: &Proc, closed: bool, r: &mut Random) -> u32 {
    let all = p.targets() | 1;
    if closed && !r.once_in(4) {
        all & (r.next() as u32 | r.next() as u32) | 1
    } else {
        all
    }
}

/// Makes the nodes of one procedure.
struct Maker<'a> {
    table: &'a Table,
    proc: &'a Proc,
    present: u32,
    random: &'a mut Random,
}

/// Makes node j, if the table has what its kind needs.
type Make = fn(&mut Maker, usize) -> Option<Node>;

impl Maker<'_> {
    fn nodes(&mut self, make: Make) -> [Node; NODES] {
        let mut nodes = [Node::Absent; NODES];
        for j in bits(self.present) {
            nodes[j] = if j == 0 {
                Node::Start { to: self.arc(0) }
            } else {
                self.node(j, make)
            };
        }
        nodes
    }

    fn node(&mut self, j: usize, make: Make) -> Node {
        loop {
            if let Some(node) = make(self, j) {
                return node;
            }
        }
    }

    /// A node of any kind.
    fn any_node(&mut self, j: usize) -> Option<Node> {
        let to = self.arc(j);
        Some(match self.random.below(22) {
            0..=4 => Node::Set {
                var: self.var()?,
                op: self.op(),
                a: self.operand(),
                b: self.operand(),
                to,
            },
            5..=7 => Node::Test {
                op: self.random.pick(&[Op::Lt, Op::Eq]),
                a: self.operand(),
                b: self.operand(),
                yes: to,
                no: self.arc(j),
            },
            8 | 9 if !self.table.closed => Node::Read {
                var: self.var()?,
                to,
            },
            10 | 11 => self.call(to)?,
            12 => Node::Wait {
                sem: self.item(self.table.sem_count)?,
                to,
            },
            13 => Node::Signal {
                sem: self.item(self.table.sem_count)?,
                to,
            },
            14 | 15 => {
                let queue = self.item(self.table.queue_count)?;
                let var = self.queue_var(queue)?;
                Node::Send { queue, var, to }
            }
            16 | 17 => {
                let queue = self.item(self.table.queue_count)?;
                let var = self.queue_var(queue)?;
                Node::Recv { queue, var, to }
            }
            18 => Node::Assert {
                var: self.shown_var()?,
                to,
            },
            19 => Node::Out {
                var: self.shown_var()?,
                to,
            },
            20 | 21 => Node::Return,
            _ => return None,
        })
    }

    /// A node of a kind that is shared with other tasks or goes by values; the first sets a variable.
    fn busy_node(&mut self, j: usize) -> Option<Node> {
        let to = match self.random.once_in(8) {
            true => self.arc(j),
            false => self.next(j),
        };
        let var = self.var()?;
        let queue = self.item(self.table.queue_count)?;
        let small = Operand::Const(self.random.within(1, 4) as i32);
        let first = self.present & !(u32::MAX << j) == 1;
        Some(match self.random.below(20) {
            at if first || at < 3 => Node::Set {
                var,
                op: Op::Add,
                a: Operand::Var(var),
                b: small,
                to,
            },
            3..=6 => Node::Test {
                op: self.random.pick(&[Op::Lt, Op::Eq]),
                a: Operand::Var(var),
                b: small,
                yes: to,
                no: self.next(j),
            },
            7..=10 => Node::Send { queue, var, to },
            11..=14 => Node::Recv { queue, var, to },
            15 | 16 => Node::Assert { var, to },
            17 => Node::Wait { sem: 0, to },
            18 => Node::Signal { sem: 0, to },
            _ => Node::Return,
        })
    }

    fn call(&mut self, to: Arc) -> Option<Node> {
        let proc = self.item(self.table.proc_count)?;
        let callee = &self.table.procs[proc as usize];
        let (count, drop) = (callee.params, callee.drop);
        let mut args = [0; PARAMS];
        for (i, arg) in args[..count as usize].iter_mut().enumerate() {
            *arg = if drop >> i & 1 == 1 {
                GONE
            } else {
                self.var()?
            };
        }
        Some(Node::Call {
            proc,
            count,
            args,
            to,
        })
    }

    fn item(&mut self, count: u8) -> Option<u8> {
        (count > 0).then(|| self.random.below(count as usize) as u8)
    }

    fn var(&mut self) -> Option<u8> {
        self.item(self.proc.vars)
    }

    fn queue_var(&mut self, queue: u8) -> Option<u8> {
        if self.table.queues[queue as usize].blank {
            Some(GONE)
        } else {
            self.var()
        }
    }

    fn shown_var(&mut self) -> Option<u8> {
        if self.table.closed && self.random.once_in(3) {
            Some(GONE)
        } else {
            self.var()
        }
    }

    fn op(&mut self) -> Op {
        self.random.pick(&[
            Op::Add,
            Op::Sub,
            Op::And,
            Op::Or,
            Op::Xor,
            Op::Shr,
            Op::Lt,
            Op::Eq,
        ])
    }

    fn operand(&mut self) -> Operand {
        match self.var() {
            Some(v) if !self.random.once_in(3) => Operand::Var(v),
            _ => Operand::Const(value(self.random)),
        }
    }

    /// An arc of node j with one target, mostly the next node.
    fn next(&mut self, j: usize) -> Arc {
        let targets = self.present & !1;
        let later = targets & (!1u32 << j);
        if later != 0 && !self.random.once_in(4) {
            later & later.wrapping_neg()
        } else {
            self.one_of(targets)
        }
    }

    /// An arc of node j, of a closed table with any targets.
    fn arc(&mut self, j: usize) -> Arc {
        let targets = self.present & !1;
        let next = self.next(j);
        if !self.table.closed {
            return next;
        }
        match self.random.below(20) {
            0 => 0,
            1..=5 => next | self.one_of(targets),
            6 | 7 => next | self.one_of(targets) | self.one_of(targets),
            8 => targets & self.random.next() as u32,
            _ => next,
        }
    }

    /// One bit of a mask, or none of an empty one.
    fn one_of(&mut self, mask: u32) -> u32 {
        if mask == 0 {
            return 0;
        }
        let at = self.random.below(mask.count_ones() as usize);
        bits(mask).nth(at).map_or(0, |bit| 1 << bit)
    }
}

/// A value, small ones and the ends of the range more often.
pub fn value(r: &mut Random) -> i32 {
    match r.below(4) {
        0 => r.next() as i32,
        1 => r.pick(&[i32::MIN, i32::MAX, -1, 31, 32, 33, -32, 65536, 100]),
        _ => r.below(7) as i32 - 2,
    }
}
