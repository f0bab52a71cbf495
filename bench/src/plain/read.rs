//! The reader: one pass over the text, then the faults 6 and 7 of the table.

use super::check;
use super::fault::{Fault, Refusal};
use super::table::*;

/// The longest text that is read.
pub const LONGEST: usize = 65_536;

/// How a node line begins.
const NODE: &[u8] = b"node=";

/// Numbers of this size and above are only known to be large.
const LARGE: u32 = 100_000_000;

/// Reads a text into any table; a refused text leaves it all 0.
pub fn read(text: &[u8], table: &mut Table) -> Result<(), Refusal> {
    *table = Table::default();
    read_first(text, table)
}

/// Reads a text into a table that is all 0; a refused text leaves it so.
pub fn read_first(text: &[u8], table: &mut Table) -> Result<(), Refusal> {
    if text.len() > LONGEST {
        return Err(Fault::Long.at(0));
    }
    let mut lines = Lines {
        rest: text,
        line: 1,
    };
    let outcome = match lines.table(table) {
        Ok(()) => check::late(table),
        Err(fault) => Err(fault.at(lines.line)),
    };
    if outcome.is_err() {
        *table = Table::default();
    }
    outcome
}

/// The rest of the text, and the line it begins in.
struct Lines<'a> {
    rest: &'a [u8],
    line: u32,
}

/// What the nodes of a procedure may refer to.
struct Scope {
    closed: bool,
    procs: u32,
    sems: u32,
    queues: u32,
    vars: u32,
    targets: Arc,
}

#[derive(Clone, Copy, PartialEq, Eq)]
enum Kind {
    Start,
    Set,
    Test,
    Read,
    Call,
    Wait,
    Signal,
    Send,
    Recv,
    Assert,
    Out,
    Return,
}

impl<'a> Lines<'a> {
    fn table(&mut self, t: &mut Table) -> Result<(), Fault> {
        self.word(b"trap=")?;
        within(self.number()?, 1, 1)?;
        self.word(b" form=")?;
        t.closed = self.choice(b"closed", b"open")?;
        self.end_line()?;
        self.word(b"tasks=")?;
        t.task_count = within(self.number()?, 1, TASKS as u32)?;
        self.word(b" procs=")?;
        t.proc_count = within(self.number()?, 1, PROCS as u32)?;
        self.word(b" sems=")?;
        t.sem_count = within(self.number()?, 0, SEMS as u32)?;
        self.word(b" queues=")?;
        t.queue_count = within(self.number()?, 0, QUEUES as u32)?;
        self.end_line()?;
        for i in 0..t.task_count {
            self.word(b"task=")?;
            self.index(i)?;
            self.word(b" top=")?;
            t.tops[i as usize] = self.reference(t.proc_count as u32)?;
            self.end_line()?;
        }
        for i in 0..t.sem_count {
            self.word(b"sem=")?;
            self.index(i)?;
            self.word(b" count=")?;
            t.sems[i as usize] = within(self.number()?, 0, 255)?;
            self.end_line()?;
        }
        for i in 0..t.queue_count {
            t.queues[i as usize] = self.queue(i, t.closed)?;
        }
        let mut scope = Scope {
            closed: t.closed,
            procs: t.proc_count as u32,
            sems: t.sem_count as u32,
            queues: t.queue_count as u32,
            vars: 0,
            targets: 0,
        };
        for i in 0..t.proc_count {
            self.procedure(i, &mut scope, &mut t.procs[i as usize])?;
        }
        if self.rest.is_empty() {
            Ok(())
        } else {
            Err(Fault::End)
        }
    }

    fn queue(&mut self, i: u8, closed: bool) -> Result<Queue, Fault> {
        self.word(b"queue=")?;
        self.index(i)?;
        self.word(b" cap=")?;
        let cap = within(self.number()?, 1, 8)?;
        let mut blank = false;
        if closed {
            self.word(b" blank=")?;
            blank = self.choice(b"yes", b"no")?;
        }
        self.end_line()?;
        Ok(Queue { cap, blank })
    }

    /// A procedure's line and its node lines.
    fn procedure(&mut self, i: u8, scope: &mut Scope, p: &mut Proc) -> Result<(), Fault> {
        self.word(b"proc=")?;
        self.index(i)?;
        self.word(b" params=")?;
        p.params = within(self.number()?, 0, PARAMS as u32)?;
        self.word(b" vars=")?;
        p.vars = within(self.number()?, p.params as u32, VARS as u32)?;
        self.word(b" nodes=")?;
        p.count = within(self.number()?, 2, NODES as u32)?;
        if scope.closed {
            self.word(b" drop=")?;
            p.drop = self.ascending(all_params(p.params) as u32)? as u8;
        }
        self.end_line()?;
        scope.vars = p.vars as u32;
        scope.targets = p.targets();
        if scope.closed {
            self.closed_nodes(scope, p)
        } else {
            self.open_nodes(scope, p)
        }
    }

    fn open_nodes(&mut self, scope: &Scope, p: &mut Proc) -> Result<(), Fault> {
        for (j, place) in p.nodes[..p.count as usize].iter_mut().enumerate() {
            self.word(NODE)?;
            self.index(j as u8)?;
            *place = self.node(j == 0, scope)?;
        }
        Ok(())
    }

    /// The node lines of a closed procedure: node 0, then each line that begins `node=` or that the
    /// text's end breaks off within it.
    fn closed_nodes(&mut self, scope: &Scope, p: &mut Proc) -> Result<(), Fault> {
        self.word(NODE)?;
        self.index(0)?;
        p.nodes[0] = self.node(true, scope)?;
        let mut least = 1;
        while self.rest.starts_with(NODE) {
            self.word(NODE)?;
            let j = self.number()?;
            if j < least || j >= p.count as u32 {
                return Err(Fault::Index);
            }
            p.nodes[j as usize] = self.node(false, scope)?;
            least = j + 1;
        }
        if !self.rest.is_empty() && NODE.starts_with(self.rest) {
            return Err(Fault::End);
        }
        Ok(())
    }

    /// A node line from its kind on.
    fn node(&mut self, first: bool, s: &Scope) -> Result<Node, Fault> {
        self.word(b" kind=")?;
        let kind = self.kind()?;
        if kind == Kind::Read && s.closed {
            return Err(Fault::Form);
        }
        if (kind == Kind::Start) != first {
            return Err(Fault::Index);
        }
        let node = match kind {
            Kind::Start => Node::Start { to: self.to(s)? },
            Kind::Set => self.set(s)?,
            Kind::Test => self.test(s)?,
            Kind::Read => Node::Read {
                var: self.variable(s)?,
                to: self.to(s)?,
            },
            Kind::Call => self.call(s)?,
            Kind::Wait => Node::Wait {
                sem: self.sem(s)?,
                to: self.to(s)?,
            },
            Kind::Signal => Node::Signal {
                sem: self.sem(s)?,
                to: self.to(s)?,
            },
            Kind::Send => Node::Send {
                queue: self.queue_used(s)?,
                var: self.maybe_variable(s)?,
                to: self.to(s)?,
            },
            Kind::Recv => Node::Recv {
                queue: self.queue_used(s)?,
                var: self.maybe_variable(s)?,
                to: self.to(s)?,
            },
            Kind::Assert => Node::Assert {
                var: self.maybe_variable(s)?,
                to: self.to(s)?,
            },
            Kind::Out => Node::Out {
                var: self.maybe_variable(s)?,
                to: self.to(s)?,
            },
            Kind::Return => Node::Return,
        };
        self.end_line()?;
        Ok(node)
    }

    fn set(&mut self, s: &Scope) -> Result<Node, Fault> {
        let var = self.variable(s)?;
        self.word(b" op=")?;
        let op = self.op()?;
        self.word(b" a=")?;
        let a = self.operand(s)?;
        self.word(b" b=")?;
        let b = self.operand(s)?;
        let to = self.to(s)?;
        Ok(Node::Set { var, op, a, b, to })
    }

    fn test(&mut self, s: &Scope) -> Result<Node, Fault> {
        self.word(b" op=")?;
        let op = self.op()?;
        if !op.compares() {
            return Err(Fault::Form);
        }
        self.word(b" a=")?;
        let a = self.operand(s)?;
        self.word(b" b=")?;
        let b = self.operand(s)?;
        self.word(b" yes=")?;
        let yes = self.arc(s)?;
        self.word(b" no=")?;
        let no = self.arc(s)?;
        Ok(Node::Test { op, a, b, yes, no })
    }

    fn call(&mut self, s: &Scope) -> Result<Node, Fault> {
        self.word(b" proc=")?;
        let proc = self.reference(s.procs)?;
        self.word(b" args=")?;
        let (count, args) = self.args(s)?;
        let to = self.to(s)?;
        Ok(Node::Call {
            proc,
            count,
            args,
            to,
        })
    }

    fn sem(&mut self, s: &Scope) -> Result<u8, Fault> {
        self.word(b" sem=")?;
        self.reference(s.sems)
    }

    fn queue_used(&mut self, s: &Scope) -> Result<u8, Fault> {
        self.word(b" queue=")?;
        self.reference(s.queues)
    }

    fn variable(&mut self, s: &Scope) -> Result<u8, Fault> {
        self.word(b" var=")?;
        self.reference(s.vars)
    }

    fn maybe_variable(&mut self, s: &Scope) -> Result<u8, Fault> {
        self.word(b" var=")?;
        if s.closed && self.rest.first() == Some(&b'-') {
            self.rest = &self.rest[1..];
            self.spelt()?;
            return Ok(GONE);
        }
        self.reference(s.vars)
    }

    fn to(&mut self, s: &Scope) -> Result<Arc, Fault> {
        self.word(b" to=")?;
        self.arc(s)
    }

    fn arc(&mut self, s: &Scope) -> Result<Arc, Fault> {
        if s.closed {
            return self.ascending(s.targets);
        }
        let target = self.number()?;
        if target < 32 && s.targets >> target & 1 == 1 {
            Ok(1 << target)
        } else {
            Err(Fault::Reference)
        }
    }

    /// An ascending list of items of a set, or `none`.
    fn ascending(&mut self, allowed: u32) -> Result<u32, Fault> {
        if self.none()? {
            return Ok(0);
        }
        let (mut mask, mut stray) = (0u32, false);
        let (mut least, mut before) = (0, self.rest);
        let mut start = self.rest;
        loop {
            let Some((item, rest)) = digits(start) else {
                return Err(self.wrong(Fault::Misspelt));
            };
            if item < least && !(item == LARGE && larger(start, before)) {
                return Err(self.wrong(Fault::Misspelt));
            }
            (least, before) = (item + 1, start);
            if item < 32 {
                mask |= 1 << item;
            } else {
                stray = true;
            }
            match rest {
                [b',', rest @ ..] => start = rest,
                [b' ' | b'\n', ..] => {
                    self.rest = rest;
                    break;
                }
                _ => return Err(self.wrong(Fault::Misspelt)),
            }
        }
        if stray || mask & !allowed != 0 {
            Err(Fault::Reference)
        } else {
            Ok(mask)
        }
    }

    /// Arguments: their number, at most 255 told apart, and the first four.
    fn args(&mut self, s: &Scope) -> Result<(u8, [u8; PARAMS]), Fault> {
        let mut args = [0; PARAMS];
        if self.none()? {
            return Ok((0, args));
        }
        let (mut count, mut stray) = (0u8, false);
        loop {
            let arg = if s.closed && self.rest.first() == Some(&b'-') {
                self.rest = &self.rest[1..];
                GONE
            } else {
                let var = self.digits()?;
                stray |= var >= s.vars;
                var as u8
            };
            if let Some(place) = args.get_mut(count as usize) {
                *place = arg;
            }
            count = count.saturating_add(1);
            if !self.comma()? {
                break;
            }
        }
        if stray {
            Err(Fault::Reference)
        } else {
            Ok((count, args))
        }
    }

    /// Whether the value is `none`, which is then passed over.
    #[inline]
    fn none(&mut self) -> Result<bool, Fault> {
        let Some(rest) = self.rest.strip_prefix(b"none") else {
            return Ok(false);
        };
        self.rest = rest;
        self.spelt()?;
        Ok(true)
    }

    /// Whether a comma follows, which is then passed over; else the value ends.
    #[inline]
    fn comma(&mut self) -> Result<bool, Fault> {
        match self.rest {
            [b',', rest @ ..] => {
                self.rest = rest;
                Ok(true)
            }
            [b' ' | b'\n', ..] => Ok(false),
            _ => Err(self.wrong(Fault::Misspelt)),
        }
    }

    fn operand(&mut self, s: &Scope) -> Result<Operand, Fault> {
        match self.rest {
            [b'v', rest @ ..] => {
                self.rest = rest;
                Ok(Operand::Var(self.reference(s.vars)?))
            }
            [b'-', rest @ ..] => {
                self.rest = rest;
                let size = self.size()?;
                match size {
                    0 => Err(Fault::Misspelt),
                    1..=0x8000_0000 => Ok(Operand::Const((size as i64).wrapping_neg() as i32)),
                    _ => Err(Fault::Range),
                }
            }
            _ => {
                let size = self.size()?;
                (i32::try_from(size).map(Operand::Const)).map_err(|_| Fault::Range)
            }
        }
    }

    /// A whole value of digits, exact up to 32 bits.
    #[inline]
    fn size(&mut self) -> Result<u64, Fault> {
        let [first @ b'0'..=b'9', rest @ ..] = self.rest else {
            return Err(self.wrong(Fault::Misspelt));
        };
        let mut rest = rest;
        let mut n = (first - b'0') as u64;
        if n != 0 {
            while let [d @ b'0'..=b'9', after @ ..] = rest {
                n = (n * 10 + (d - b'0') as u64).min(1 << 40);
                rest = after;
            }
        }
        self.rest = rest;
        self.spelt()?;
        Ok(n)
    }

    fn kind(&mut self) -> Result<Kind, Fault> {
        let (kind, len) = match self.rest {
            [b's', b'e', b't', ..] => (Kind::Set, 3),
            [b't', b'e', b's', b't', ..] => (Kind::Test, 4),
            [b's', b't', b'a', b'r', b't', ..] => (Kind::Start, 5),
            [b'r', b'e', b'a', b'd', ..] => (Kind::Read, 4),
            [b'c', b'a', b'l', b'l', ..] => (Kind::Call, 4),
            [b'w', b'a', b'i', b't', ..] => (Kind::Wait, 4),
            [b's', b'i', b'g', b'n', b'a', b'l', ..] => (Kind::Signal, 6),
            [b's', b'e', b'n', b'd', ..] => (Kind::Send, 4),
            [b'r', b'e', b'c', b'v', ..] => (Kind::Recv, 4),
            [b'a', b's', b's', b'e', b'r', b't', ..] => (Kind::Assert, 6),
            [b'o', b'u', b't', ..] => (Kind::Out, 3),
            [b'r', b'e', b't', b'u', b'r', b'n', ..] => (Kind::Return, 6),
            _ => return Err(self.wrong(Fault::Form)),
        };
        self.rest = &self.rest[len..];
        self.ended(Fault::Form)?;
        Ok(kind)
    }

    fn op(&mut self) -> Result<Op, Fault> {
        let (op, len) = match self.rest {
            [b'a', b'd', b'd', ..] => (Op::Add, 3),
            [b's', b'u', b'b', ..] => (Op::Sub, 3),
            [b'a', b'n', b'd', ..] => (Op::And, 3),
            [b'o', b'r', ..] => (Op::Or, 2),
            [b'x', b'o', b'r', ..] => (Op::Xor, 3),
            [b's', b'h', b'r', ..] => (Op::Shr, 3),
            [b'l', b't', ..] => (Op::Lt, 2),
            [b'e', b'q', ..] => (Op::Eq, 2),
            _ => return Err(self.wrong(Fault::Form)),
        };
        self.rest = &self.rest[len..];
        self.ended(Fault::Form)?;
        Ok(op)
    }

    /// True for the first word, false for the second.
    fn choice(&mut self, yes: &[u8], no: &[u8]) -> Result<bool, Fault> {
        let is_yes = self.rest.starts_with(yes);
        let Some(rest) = self.rest.strip_prefix(if is_yes { yes } else { no }) else {
            return Err(self.wrong(Fault::Form));
        };
        self.rest = rest;
        self.ended(Fault::Form)?;
        Ok(is_yes)
    }

    /// An index, which has to be the one due.
    #[inline]
    fn index(&mut self, due: u8) -> Result<(), Fault> {
        if self.number()? == due as u32 {
            Ok(())
        } else {
            Err(Fault::Index)
        }
    }

    /// A reference to one of `count` items.
    #[inline]
    fn reference(&mut self, count: u32) -> Result<u8, Fault> {
        let n = self.number()?;
        if n < count {
            Ok(n as u8)
        } else {
            Err(Fault::Reference)
        }
    }

    /// A whole value of digits, exact below `LARGE`.
    #[inline]
    fn number(&mut self) -> Result<u32, Fault> {
        let n = self.digits()?;
        self.spelt()?;
        Ok(n)
    }

    #[inline(always)]
    fn digits(&mut self) -> Result<u32, Fault> {
        let Some((n, rest)) = digits(self.rest) else {
            return Err(self.wrong(Fault::Misspelt));
        };
        self.rest = rest;
        Ok(n)
    }

    /// The number, operand or list ends here.
    #[inline]
    fn spelt(&self) -> Result<(), Fault> {
        self.ended(Fault::Misspelt)
    }

    /// The value ends here, else it has the fault.
    #[inline]
    fn ended(&self, fault: Fault) -> Result<(), Fault> {
        match self.rest {
            [b' ' | b'\n', ..] => Ok(()),
            _ => Err(self.wrong(fault)),
        }
    }

    /// The fault of a value that is not what is due, within which the rest begins; one that the
    /// text's end breaks off is an early end.
    #[cold]
    #[inline(never)]
    fn wrong(&self, fault: Fault) -> Fault {
        match self.rest.iter().any(|b| matches!(b, b' ' | b'\n')) {
            true => fault,
            false => Fault::End,
        }
    }

    /// Passes over a word; a text that ends within it ends early.
    #[inline(always)]
    fn word(&mut self, word: &[u8]) -> Result<(), Fault> {
        self.rest = self
            .rest
            .strip_prefix(word)
            .ok_or_else(|| unmet(word, self.rest))?;
        Ok(())
    }

    #[inline]
    fn end_line(&mut self) -> Result<(), Fault> {
        self.word(b"\n")?;
        self.line += 1;
        Ok(())
    }
}

/// Digits at the front of a text with no needless leading zero, exact below `LARGE`, and the rest.
#[inline(always)]
fn digits(text: &[u8]) -> Option<(u32, &[u8])> {
    match *text {
        [a @ b'0'..=b'9', b, ..] if !b.is_ascii_digit() => Some(((a - b'0') as u32, &text[1..])),
        [a @ b'1'..=b'9', b @ b'0'..=b'9', c, ..] if !c.is_ascii_digit() => {
            Some(((a - b'0') as u32 * 10 + (b - b'0') as u32, &text[2..]))
        }
        _ => more_digits(text),
    }
}

#[inline(never)]
fn more_digits(text: &[u8]) -> Option<(u32, &[u8])> {
    let [first @ b'0'..=b'9', rest @ ..] = text else {
        return None;
    };
    let mut rest = rest;
    let mut n = (first - b'0') as u32;
    while let [d @ b'0'..=b'9', after @ ..] = rest {
        if n == 0 {
            return None;
        }
        n = (n * 10 + (d - b'0') as u32).min(LARGE);
        rest = after;
    }
    Some((n, rest))
}

/// The fault of a text that doesn't begin with a word that is due.
#[cold]
#[inline(never)]
fn unmet(word: &[u8], text: &[u8]) -> Fault {
    match word.starts_with(text) {
        true => Fault::End,
        false => Fault::Form,
    }
}

/// Whether the number at the front of a text is larger than that of another.
#[cold]
fn larger(text: &[u8], than: &[u8]) -> bool {
    fn digits(text: &[u8]) -> &[u8] {
        let len = text.iter().take_while(|b| b.is_ascii_digit()).count();
        &text[..len]
    }
    let (text, than) = (digits(text), digits(than));
    (text.len(), text) > (than.len(), than)
}

#[inline]
fn within(n: u32, least: u32, most: u32) -> Result<u8, Fault> {
    if n < least || n > most {
        Err(Fault::Range)
    } else {
        Ok(n as u8)
    }
}
