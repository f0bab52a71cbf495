//! The writer: one pass into the lent buffer.

use super::check;
use super::fault::{Fault, Refusal};
use super::table::*;

/// The length of the longest text that a valid table has.
pub const LONGEST_TEXT: usize = 57_855;

/// Writes a table's text into the buffer and says how long it is; a refusal alters nothing.
pub fn write(t: &Table, out: &mut [u8]) -> Result<usize, Refusal> {
    check::check(t)?;
    write_valid(t, out)
}

/// The same for a table that is known to be valid.
pub fn write_valid(t: &Table, out: &mut [u8]) -> Result<usize, Refusal> {
    if out.len() < LONGEST_TEXT && out.len() < length(t) {
        return Err(Fault::Buffer.at(0));
    }
    Ok(write_lines(t, out))
}

/// Writes the lines that a table stands for, valid or not, into a buffer with room for them.
pub fn write_lines(t: &Table, out: &mut [u8]) -> usize {
    let mut buffer = Buffer { out, len: 0 };
    table(t, &mut buffer);
    buffer.len
}

/// The length of a table's text.
pub fn length(t: &Table) -> usize {
    let mut count = Count { len: 0 };
    table(t, &mut count);
    count.len
}

/// Where text goes.
pub trait Sink {
    fn put(&mut self, bytes: &[u8]);

    /// A number in decimal digits.
    fn number(&mut self, n: u32);
}

/// Text goes to the front of a buffer with room for it.
pub struct Buffer<'a> {
    pub out: &'a mut [u8],
    pub len: usize,
}

/// Text is only measured.
struct Count {
    len: usize,
}

impl Sink for Buffer<'_> {
    #[inline(always)]
    fn put(&mut self, bytes: &[u8]) {
        self.out[self.len..self.len + bytes.len()].copy_from_slice(bytes);
        self.len += bytes.len();
    }

    #[inline]
    fn number(&mut self, n: u32) {
        if n < 10 {
            self.put(&[b'0' + n as u8]);
        } else if n < 100 {
            self.put(&[b'0' + (n / 10) as u8, b'0' + (n % 10) as u8]);
        } else {
            self.long_number(n);
        }
    }
}

impl Buffer<'_> {
    /// A number of three digits and more, two at a time from the last.
    fn long_number(&mut self, mut n: u32) {
        let len = n.ilog10() as usize + 1;
        let place = &mut self.out[self.len..self.len + len];
        self.len += len;
        let mut end = len;
        while n >= 10 {
            let two = (n % 100) as u8;
            place[end - 2] = b'0' + two / 10;
            place[end - 1] = b'0' + two % 10;
            n /= 100;
            end -= 2;
        }
        if end == 1 {
            place[0] = b'0' + n as u8;
        }
    }
}

impl Sink for Count {
    #[inline(always)]
    fn put(&mut self, bytes: &[u8]) {
        self.len += bytes.len();
    }

    #[inline]
    fn number(&mut self, n: u32) {
        self.len += n.max(1).ilog10() as usize + 1;
    }
}

fn table(t: &Table, s: &mut impl Sink) {
    match t.closed {
        true => s.put(b"trap=1 form=closed\n"),
        false => s.put(b"trap=1 form=open\n"),
    }
    pair(s, b"tasks=", t.task_count);
    pair(s, b" procs=", t.proc_count);
    pair(s, b" sems=", t.sem_count);
    pair(s, b" queues=", t.queue_count);
    s.put(b"\n");
    for (i, &top) in first(&t.tops, t.task_count).iter().enumerate() {
        pair(s, b"task=", i as u8);
        pair(s, b" top=", top);
        s.put(b"\n");
    }
    for (i, &count) in first(&t.sems, t.sem_count).iter().enumerate() {
        pair(s, b"sem=", i as u8);
        pair(s, b" count=", count);
        s.put(b"\n");
    }
    for (i, queue) in first(&t.queues, t.queue_count).iter().enumerate() {
        pair(s, b"queue=", i as u8);
        pair(s, b" cap=", queue.cap);
        if t.closed {
            match queue.blank {
                true => s.put(b" blank=yes"),
                false => s.put(b" blank=no"),
            }
        }
        s.put(b"\n");
    }
    for (i, p) in first(&t.procs, t.proc_count).iter().enumerate() {
        procedure(i as u8, p, t.closed, s);
    }
}

/// The places in use, no more than there are.
fn first<T>(places: &[T], count: u8) -> &[T] {
    &places[..places.len().min(count as usize)]
}

fn procedure(i: u8, p: &Proc, closed: bool, s: &mut impl Sink) {
    pair(s, b"proc=", i);
    pair(s, b" params=", p.params);
    pair(s, b" vars=", p.vars);
    pair(s, b" nodes=", p.count);
    if closed {
        list(s, b" drop=", p.drop as u32);
    }
    s.put(b"\n");
    for (j, n) in p.used().iter().enumerate() {
        if *n != Node::Absent {
            pair(s, b"node=", j as u8);
            node(n, s);
            s.put(b"\n");
        }
    }
}

/// A node line from its kind on.
fn node(n: &Node, s: &mut impl Sink) {
    match *n {
        Node::Absent => {}
        Node::Start { to } => list(s, b" kind=start to=", to),
        Node::Set { var, op, a, b, to } => {
            pair(s, b" kind=set var=", var);
            op_name(s, op);
            operand(s, b" a=", a);
            operand(s, b" b=", b);
            list(s, b" to=", to);
        }
        Node::Test { op, a, b, yes, no } => {
            s.put(b" kind=test");
            op_name(s, op);
            operand(s, b" a=", a);
            operand(s, b" b=", b);
            list(s, b" yes=", yes);
            list(s, b" no=", no);
        }
        Node::Read { var, to } => {
            pair(s, b" kind=read var=", var);
            list(s, b" to=", to);
        }
        Node::Call {
            proc,
            count,
            args,
            to,
        } => {
            pair(s, b" kind=call proc=", proc);
            arguments(s, count, &args);
            list(s, b" to=", to);
        }
        Node::Wait { sem, to } => {
            pair(s, b" kind=wait sem=", sem);
            list(s, b" to=", to);
        }
        Node::Signal { sem, to } => {
            pair(s, b" kind=signal sem=", sem);
            list(s, b" to=", to);
        }
        Node::Send { queue, var, to } => {
            pair(s, b" kind=send queue=", queue);
            variable(s, b" var=", var);
            list(s, b" to=", to);
        }
        Node::Recv { queue, var, to } => {
            pair(s, b" kind=recv queue=", queue);
            variable(s, b" var=", var);
            list(s, b" to=", to);
        }
        Node::Assert { var, to } => {
            variable(s, b" kind=assert var=", var);
            list(s, b" to=", to);
        }
        Node::Out { var, to } => {
            variable(s, b" kind=out var=", var);
            list(s, b" to=", to);
        }
        Node::Return => s.put(b" kind=return"),
    }
}

#[inline(always)]
fn pair(s: &mut impl Sink, key: &[u8], n: u8) {
    s.put(key);
    s.number(n as u32);
}

#[inline(always)]
fn variable(s: &mut impl Sink, key: &[u8], var: u8) {
    s.put(key);
    if var == GONE {
        s.put(b"-");
    } else {
        s.number(var as u32);
    }
}

#[inline(always)]
fn op_name(s: &mut impl Sink, op: Op) {
    match op {
        Op::Add => s.put(b" op=add"),
        Op::Sub => s.put(b" op=sub"),
        Op::And => s.put(b" op=and"),
        Op::Or => s.put(b" op=or"),
        Op::Xor => s.put(b" op=xor"),
        Op::Shr => s.put(b" op=shr"),
        Op::Lt => s.put(b" op=lt"),
        Op::Eq => s.put(b" op=eq"),
    }
}

#[inline(always)]
fn operand(s: &mut impl Sink, key: &[u8], o: Operand) {
    s.put(key);
    match o {
        Operand::Var(v) => pair(s, b"v", v),
        Operand::Const(c) => constant(s, c),
    }
}

/// A signed number.
#[inline]
pub fn constant(s: &mut impl Sink, c: i32) {
    if c < 0 {
        s.put(b"-");
    }
    s.number(c.unsigned_abs());
}

/// The items of a mask, ascending, or `none`.
#[inline(always)]
fn list(s: &mut impl Sink, key: &[u8], mask: u32) {
    s.put(key);
    if mask == 0 {
        s.put(b"none");
        return;
    }
    s.number(mask.trailing_zeros());
    for i in bits(mask & (mask - 1)) {
        if i < 10 {
            s.put(&[b',', b'0' + i as u8]);
        } else {
            s.put(&[b',', b'0' + (i / 10) as u8, b'0' + (i % 10) as u8]);
        }
    }
}

fn arguments(s: &mut impl Sink, count: u8, args: &[u8; PARAMS]) {
    if count == 0 {
        s.put(b" args=none");
        return;
    }
    variable(s, b" args=", args[0]);
    for i in 1..count as usize {
        variable(s, b",", args[i.min(PARAMS - 1)]);
    }
}
