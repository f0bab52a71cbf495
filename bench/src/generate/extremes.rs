//! The longest texts, the tables that are hard to close, and tables for long runs.

use crate::plain::close::close_valid;
use crate::plain::read::read;
use crate::plain::run::{Machine, State, ENTRY};
use crate::plain::table::*;
use crate::random::Random;

/// The counts of a full-size table, each item with the longest line.
fn full(closed: bool) -> Table {
    let mut t = Table {
        closed,
        task_count: TASKS as u8,
        proc_count: PROCS as u8,
        sem_count: SEMS as u8,
        queue_count: QUEUES as u8,
        tops: [0, 1, 2, 7],
        sems: [255; SEMS],
        queues: [Queue {
            cap: 8,
            blank: closed,
        }; QUEUES],
        ..Table::default()
    };
    for p in &mut t.procs {
        p.params = PARAMS as u8;
        p.vars = VARS as u8;
        p.count = NODES as u8;
        p.drop = if closed { all_params(p.params) } else { 0 };
    }
    t
}

/// The table of the longest open text, 16,845 bytes.
pub fn longest_open() -> Table {
    let mut t = full(false);
    for p in &mut t.procs {
        p.nodes[0] = Node::Start { to: 1 << 31 };
        for (j, node) in p.nodes.iter_mut().enumerate().skip(1) {
            let (a, b) = (
                Operand::Const(i32::MIN),
                Operand::Const(i32::MIN + j as i32),
            );
            *node = match j % 2 {
                0 => Node::Set {
                    var: 15,
                    op: Op::Xor,
                    a,
                    b,
                    to: 1 << 31,
                },
                _ => Node::Test {
                    op: Op::Lt,
                    a,
                    b,
                    yes: 1 << 10,
                    no: 1 << 31,
                },
            };
        }
    }
    t
}

/// The table of the longest closed text, 57,855 bytes.
pub fn longest_closed() -> Table {
    let mut t = full(true);
    for p in &mut t.procs {
        let all = p.targets();
        p.nodes[0] = Node::Start { to: all };
        for node in &mut p.nodes[1..] {
            *node = Node::Test {
                op: Op::Eq,
                a: Operand::Const(i32::MIN),
                b: Operand::Const(-1_234_567_890),
                yes: all,
                no: all,
            };
        }
    }
    t
}

/// Full-size open tables that are hard to close, with their names.
pub fn hard() -> Vec<(&'static str, Table)> {
    vec![
        ("chains in node order", chains(false, Link::Calls)),
        ("chains against node order", chains(true, Link::Calls)),
        ("chains through queues", chains(true, Link::Queues)),
        ("chains one parameter at a time", rounds()),
        ("webs of dropped tests", webs()),
    ]
}

/// How dirt gets from one procedure to the next.
#[derive(Clone, Copy, PartialEq, Eq)]
enum Link {
    Calls,
    Queues,
}

/// The i-th of the 31 places of a ring of nodes, with an arc to the next.
fn ring(i: usize, against: bool) -> (usize, Arc) {
    let place = |i: usize| match against {
        true => 31 - i % 31,
        false => 1 + i % 31,
    };
    (place(i), 1 << place(i + 1))
}

/// In each procedure a ring in which each setting feeds the one before it, so that the dirt of
/// each of 16 variables goes all the way round before the next; the last variable goes on to the
/// procedure before.
fn chains(against: bool, link: Link) -> Table {
    let mut t = full(false);
    t.tops = [7; TASKS];
    for (i, p) in t.procs.iter_mut().enumerate() {
        p.params = 1;
        let before = (i + PROCS - 1) % PROCS;
        p.nodes[0] = Node::Start {
            to: 1 << ring(0, against).0,
        };
        for k in 0..31 {
            let (j, to) = ring(k, against);
            p.nodes[j] = match k {
                0..=14 => copy(15 - k as u8, 14 - k as u8, to),
                15 if link == Link::Queues && i < 7 => Node::Recv {
                    queue: i as u8,
                    var: 0,
                    to,
                },
                15 if link == Link::Queues => Node::Read { var: 0, to },
                16 if link == Link::Queues => Node::Send {
                    queue: before as u8,
                    var: 15,
                    to,
                },
                16 if i > 0 => Node::Call {
                    proc: before as u8,
                    count: 1,
                    args: [15, 0, 0, 0],
                    to,
                },
                _ => Node::Out {
                    var: k as u8 % 16,
                    to,
                },
            };
        }
    }
    t
}

/// v = u + 1
fn copy(v: u8, u: u8, to: Arc) -> Node {
    Node::Set {
        var: v,
        op: Op::Add,
        a: Operand::Var(u),
        b: Operand::Const(1),
        to,
    }
}

/// Each procedure passes its four parameters on through three settings each, against node order;
/// from the last procedure a parameter's dirt comes back to the first as the next parameter's.
fn rounds() -> Table {
    let mut t = full(false);
    t.tops = [0; TASKS];
    for (i, p) in t.procs.iter_mut().enumerate() {
        p.params = if i == 0 { 1 } else { 4 };
        p.nodes[0] = Node::Start { to: 1 << 31 };
        for k in 0..31 {
            let (j, to) = ring(k, true);
            let (chain, part) = (k / 4 % 4, k % 4);
            let link = |part: usize| match part {
                0 => chain as u8,
                part => (4 + chain * 3 + part - 1) as u8,
            };
            p.nodes[j] = match (k, part) {
                (0..=15, 0..=2) => copy(link(3 - part), link(2 - part), to),
                (16..=18, _) if i == 7 => Node::Send {
                    queue: k as u8 - 16,
                    var: (6 + (k - 16) * 3) as u8,
                    to,
                },
                (16..=18, _) if i == 0 => Node::Recv {
                    queue: k as u8 - 16,
                    var: k as u8 - 15,
                    to,
                },
                (20, _) if i < 7 => Node::Call {
                    proc: i as u8 + 1,
                    count: 4,
                    args: [6, 9, 12, 15],
                    to,
                },
                (22..=29, _) => Node::Test {
                    op: Op::Lt,
                    a: Operand::Var((k - 18) as u8),
                    b: Operand::Const(7),
                    yes: to,
                    no: 1 << (30 - k),
                },
                _ => Node::Out { var: 15, to },
            };
        }
    }
    t
}

/// In each procedure 15 kept nodes and 16 dropped tests in a web that leads from each to all.
fn webs() -> Table {
    let mut t = full(false);
    t.tops = [0; TASKS];
    for (i, p) in t.procs.iter_mut().enumerate() {
        p.params = 4;
        p.nodes[0] = Node::Start { to: 1 << 16 };
        for j in 1..32usize {
            let to = 1 << (16 + (j * 7) % 16);
            p.nodes[j] = match j {
                1 if i < 7 => Node::Call {
                    proc: i as u8 + 1,
                    count: 4,
                    args: [0, 1, 2, 3],
                    to,
                },
                1..=15 => Node::Out {
                    var: j as u8 % 4,
                    to,
                },
                _ => Node::Test {
                    op: Op::Eq,
                    a: Operand::Var(j as u8 % 4),
                    b: Operand::Const(j as i32),
                    yes: 1 << (16 + (j + 1) % 16),
                    no: 1 << (1 + j % 15),
                },
            };
        }
    }
    t
}

/// A long run: a table's text, its schedule, its values.
pub struct LongRun {
    pub name: String,
    pub table: Table,
    pub schedule: Vec<u8>,
    pub values: Vec<i32>,
}

/// The most dropped nodes per step in a long run.
pub const MOST: usize = 100;

/// Open and closed runs of so many steps.
pub fn long_runs(steps: usize) -> Vec<LongRun> {
    let mut runs = Vec::new();
    for (name, open, closed) in pairs() {
        runs.push(long_run(format!("open, {name}"), open, steps));
        runs.push(long_run(format!("closed, {name}"), closed, steps));
    }
    runs
}

/// The closed tables of long runs.
pub fn closed_tables() -> impl Iterator<Item = (&'static str, Table)> {
    pairs().map(|(name, _, closed)| (name, closed))
}

/// The open and the closed tables of long runs.
fn pairs() -> impl Iterator<Item = (&'static str, Table, Table)> {
    let texts = [
        ("mixed", MIXED),
        ("sets and tests", ARITHMETIC),
        ("calls", CALLS),
        ("queues", PIPES),
    ];
    texts.into_iter().map(|(name, text)| {
        let (mut open, mut closed) = (Table::default(), Table::default());
        read(text.as_bytes(), &mut open).expect("the table is accepted");
        close_valid(&open, &mut closed).expect("an open table closes");
        (name, open, closed)
    })
}

fn long_run(name: String, table: Table, steps: usize) -> LongRun {
    let mut r = Random::new(1);
    let values: Vec<i32> = match table.closed {
        true => (0..2 * steps).map(|_| r.below(2) as i32).collect(),
        false => (0..2 * steps).map(|_| r.below(200) as i32).collect(),
    };
    let schedule = match table.closed {
        true => walk(Machine::<true>::new(&table, &values, MOST), &table, steps),
        false => walk(Machine::<false>::new(&table, &values, MOST), &table, steps),
    };
    LongRun {
        name,
        table,
        schedule,
        values,
    }
}

/// A schedule that steps the tasks in turn and passes over blocked ones.
fn walk<const CLOSED: bool>(mut m: Machine<CLOSED>, table: &Table, steps: usize) -> Vec<u8> {
    let mut state = State::default();
    m.start(&mut state).expect("the values suffice");
    let mut entry = [0; ENTRY];
    let mut schedule = Vec::with_capacity(steps);
    let (mut task, mut stopped) = (0, 0);
    while schedule.len() < steps {
        match m.step(&mut state, task, Some(&mut entry)) {
            Ok(()) => {
                schedule.push(task);
                stopped = 0;
            }
            Err(_) => stopped += 1,
        }
        task = (task + 1) % table.task_count;
        assert!(stopped < TASKS, "the run goes on");
    }
    schedule
}

/// Three tasks with all kinds of nodes.
const MIXED: &str = "\
trap=1 form=open
tasks=3 procs=4 sems=2 queues=2
task=0 top=0
task=1 top=1
task=2 top=2
sem=0 count=1
sem=1 count=3
queue=0 cap=4
queue=1 cap=8
proc=0 params=1 vars=4 nodes=14
node=0 kind=start to=1
node=1 kind=read var=0 to=2
node=2 kind=set var=1 op=add a=v1 b=1 to=3
node=3 kind=call proc=3 args=1,0 to=4
node=4 kind=test op=lt a=v0 b=100 yes=5 no=9
node=5 kind=wait sem=0 to=6
node=6 kind=out var=1 to=7
node=7 kind=send queue=0 var=1 to=8
node=8 kind=signal sem=0 to=10
node=9 kind=send queue=1 var=0 to=10
node=10 kind=assert var=1 to=11
node=11 kind=test op=lt a=v1 b=1000 yes=1 no=12
node=12 kind=set var=1 op=and a=v1 b=15 to=1
node=13 kind=return
proc=1 params=0 vars=3 nodes=8
node=0 kind=start to=1
node=1 kind=recv queue=0 var=0 to=2
node=2 kind=set var=1 op=xor a=v0 b=v1 to=3
node=3 kind=test op=eq a=v1 b=0 yes=1 no=4
node=4 kind=wait sem=0 to=5
node=5 kind=out var=1 to=6
node=6 kind=signal sem=0 to=1
node=7 kind=return
proc=2 params=0 vars=2 nodes=6
node=0 kind=start to=1
node=1 kind=recv queue=1 var=0 to=2
node=2 kind=set var=1 op=shr a=v0 b=1 to=3
node=3 kind=test op=lt a=v1 b=50 yes=1 no=4
node=4 kind=out var=1 to=1
node=5 kind=return
proc=3 params=2 vars=4 nodes=5
node=0 kind=start to=1
node=1 kind=set var=2 op=add a=v0 b=5 to=2
node=2 kind=set var=3 op=sub a=v1 b=v2 to=3
node=3 kind=out var=2 to=4
node=4 kind=return
";

/// Clean sets and tests, one read in a round.
const ARITHMETIC: &str = "\
trap=1 form=open
tasks=2 procs=1 sems=0 queues=0
task=0 top=0
task=1 top=0
proc=0 params=0 vars=6 nodes=12
node=0 kind=start to=1
node=1 kind=read var=0 to=2
node=2 kind=set var=1 op=add a=v1 b=1 to=3
node=3 kind=set var=2 op=xor a=v2 b=v1 to=4
node=4 kind=test op=lt a=v2 b=64 yes=5 no=6
node=5 kind=set var=3 op=sub a=v3 b=v2 to=7
node=6 kind=set var=3 op=shr a=v3 b=1 to=7
node=7 kind=test op=eq a=v0 b=7 yes=8 no=9
node=8 kind=set var=4 op=or a=v4 b=v1 to=1
node=9 kind=set var=5 op=and a=v1 b=255 to=10
node=10 kind=test op=lt a=v5 b=128 yes=2 no=1
node=11 kind=return
";

/// Calls three deep.
const CALLS: &str = "\
trap=1 form=open
tasks=2 procs=4 sems=0 queues=0
task=0 top=0
task=1 top=0
proc=0 params=1 vars=3 nodes=5
node=0 kind=start to=1
node=1 kind=set var=1 op=add a=v1 b=1 to=2
node=2 kind=call proc=1 args=1,0 to=3
node=3 kind=read var=0 to=1
node=4 kind=return
proc=1 params=2 vars=3 nodes=3
node=0 kind=start to=1
node=1 kind=call proc=2 args=0,1,0,0 to=2
node=2 kind=return
proc=2 params=4 vars=16 nodes=5
node=0 kind=start to=1
node=1 kind=test op=lt a=v1 b=50 yes=2 no=3
node=2 kind=call proc=3 args=2 to=4
node=3 kind=call proc=3 args=3 to=4
node=4 kind=return
proc=3 params=1 vars=1 nodes=3
node=0 kind=start to=1
node=1 kind=out var=0 to=2
node=2 kind=return
";

/// Two queues round three tasks, and two semaphores.
const PIPES: &str = "\
trap=1 form=open
tasks=3 procs=3 sems=2 queues=2
task=0 top=0
task=1 top=1
task=2 top=2
sem=0 count=1
sem=1 count=2
queue=0 cap=8
queue=1 cap=8
proc=0 params=0 vars=2 nodes=7
node=0 kind=start to=1
node=1 kind=read var=0 to=2
node=2 kind=wait sem=0 to=3
node=3 kind=send queue=0 var=0 to=4
node=4 kind=signal sem=0 to=5
node=5 kind=send queue=1 var=1 to=1
node=6 kind=return
proc=1 params=0 vars=1 nodes=5
node=0 kind=start to=1
node=1 kind=recv queue=0 var=0 to=2
node=2 kind=wait sem=1 to=3
node=3 kind=signal sem=1 to=1
node=4 kind=return
proc=2 params=0 vars=1 nodes=4
node=0 kind=start to=1
node=1 kind=recv queue=1 var=0 to=2
node=2 kind=out var=0 to=1
node=3 kind=return
";
