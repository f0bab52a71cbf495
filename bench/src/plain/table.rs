//! The table: fixed arrays, sets held as bit masks.

pub const TASKS: usize = 4;
pub const PROCS: usize = 8;
pub const SEMS: usize = 8;
pub const QUEUES: usize = 8;
pub const PARAMS: usize = 4;
pub const VARS: usize = 16;
pub const NODES: usize = 32;

/// Stands where a variable was removed, written `-`.
pub const GONE: u8 = u8::MAX;

/// A variable or a constant.
#[derive(Clone, Copy, Debug, PartialEq, Eq)]
pub enum Operand {
    Var(u8),
    Const(i32),
}

#[derive(Clone, Copy, Debug, PartialEq, Eq)]
pub enum Op {
    Add,
    Sub,
    And,
    Or,
    Xor,
    Shr,
    Lt,
    Eq,
}

/// The targets of an arc, target i as bit i.
pub type Arc = u32;

/// A node of a procedure; the variables of `Send` to `Out` and arguments may be `GONE`.
#[derive(Clone, Copy, Debug, Default, PartialEq, Eq)]
pub enum Node {
    #[default]
    Absent,
    Start {
        to: Arc,
    },
    Set {
        var: u8,
        op: Op,
        a: Operand,
        b: Operand,
        to: Arc,
    },
    Test {
        op: Op,
        a: Operand,
        b: Operand,
        yes: Arc,
        no: Arc,
    },
    Read {
        var: u8,
        to: Arc,
    },
    /// `count` may exceed the places of `args`: then it differs from every callee's.
    Call {
        proc: u8,
        count: u8,
        args: [u8; PARAMS],
        to: Arc,
    },
    Wait {
        sem: u8,
        to: Arc,
    },
    Signal {
        sem: u8,
        to: Arc,
    },
    Send {
        queue: u8,
        var: u8,
        to: Arc,
    },
    Recv {
        queue: u8,
        var: u8,
        to: Arc,
    },
    Assert {
        var: u8,
        to: Arc,
    },
    Out {
        var: u8,
        to: Arc,
    },
    Return,
}

#[derive(Clone, Copy, Debug, Default, PartialEq, Eq)]
pub struct Queue {
    pub cap: u8,
    pub blank: bool,
}

/// A procedure; `drop` holds its dropped parameters, parameter i as bit i.
#[derive(Clone, Copy, Debug, Default, PartialEq, Eq)]
pub struct Proc {
    pub params: u8,
    pub vars: u8,
    pub count: u8,
    pub drop: u8,
    pub nodes: [Node; NODES],
}

#[derive(Clone, Debug, Default, PartialEq, Eq)]
pub struct Table {
    pub closed: bool,
    pub task_count: u8,
    pub proc_count: u8,
    pub sem_count: u8,
    pub queue_count: u8,
    pub tops: [u8; TASKS],
    pub sems: [u8; SEMS],
    pub queues: [Queue; QUEUES],
    pub procs: [Proc; PROCS],
}

impl Op {
    #[inline]
    pub fn apply(self, a: i32, b: i32) -> i32 {
        match self {
            Op::Add => a.wrapping_add(b),
            Op::Sub => a.wrapping_sub(b),
            Op::And => a & b,
            Op::Or => a | b,
            Op::Xor => a ^ b,
            Op::Shr => a >> (b & 31),
            Op::Lt => (a < b) as i32,
            Op::Eq => (a == b) as i32,
        }
    }

    /// Whether a test may have it.
    pub fn compares(self) -> bool {
        matches!(self, Op::Lt | Op::Eq)
    }
}

impl Operand {
    /// The variable it uses, as a mask.
    #[inline]
    pub fn uses(self) -> u16 {
        match self {
            Operand::Var(v) => 1 << v,
            Operand::Const(_) => 0,
        }
    }

    /// Its value among the variables of a frame.
    #[inline]
    pub fn value(self, vars: &[i32; VARS]) -> i32 {
        match self {
            Operand::Var(v) => vars[v as usize % VARS],
            Operand::Const(c) => c,
        }
    }
}

impl Proc {
    /// The nodes in use, absent ones among them.
    pub fn used(&self) -> &[Node] {
        &self.nodes[..NODES.min(self.count as usize)]
    }

    /// The targets that an arc may have: 1 to n-1.
    pub fn targets(&self) -> Arc {
        targets(self.count)
    }

    /// The nodes that are present, as a mask.
    pub fn present(&self) -> u32 {
        let mut mask = 0;
        for (i, node) in self.used().iter().enumerate() {
            mask |= ((*node != Node::Absent) as u32) << i;
        }
        mask
    }
}

/// The targets 1 to n-1 as a mask, n from 2 to 32.
pub fn targets(n: u8) -> Arc {
    (u32::MAX >> (32 - n as u32)) & !1
}

/// All k parameters as a mask.
pub fn all_params(k: u8) -> u8 {
    (1 << k) - 1
}

/// The bits of a mask, lowest first.
pub fn bits(mut mask: u32) -> impl Iterator<Item = usize> {
    std::iter::from_fn(move || {
        if mask == 0 {
            return None;
        }
        let bit = mask.trailing_zeros();
        mask &= mask - 1;
        Some(bit as usize)
    })
}
