//! Closing straight from the definitions, slowly, to test the closer with.

use crate::plain::table::*;

/// What is dirty: settings by procedure and node, dropped parameters, blank queues.
#[derive(Clone, Default, PartialEq)]
struct Dirty {
    settings: Vec<(usize, usize)>,
    drop: Vec<(usize, u8)>,
    blank: Vec<u8>,
}

/// The closed table of a valid open one.
pub fn close(t: &Table) -> Table {
    let dirty = least(t);
    let mut closed = t.clone();
    closed.closed = true;
    for &q in &dirty.blank {
        closed.queues[q as usize].blank = true;
    }
    for &(p, v) in &dirty.drop {
        closed.procs[p].drop |= 1 << v;
    }
    for p in 0..t.proc_count as usize {
        for n in 0..t.procs[p].count as usize {
            closed.procs[p].nodes[n] = if kept(t, &dirty, p, n) {
                closed_node(t, &dirty, p, n)
            } else {
                Node::Absent
            };
        }
    }
    closed
}

/// The least solution: what the rules give, over and over, from nothing.
fn least(t: &Table) -> Dirty {
    let mut dirty = Dirty::default();
    loop {
        let next = more(t, &dirty);
        if next == dirty {
            return dirty;
        }
        dirty = next;
    }
}

/// What the rules give if no more than this is dirty.
fn more(t: &Table, d: &Dirty) -> Dirty {
    let mut next = Dirty::default();
    for &top in &t.tops[..t.task_count as usize] {
        for v in 0..t.procs[top as usize].params {
            insert(&mut next.drop, (top as usize, v));
        }
    }
    for p in 0..t.proc_count as usize {
        for n in 0..t.procs[p].count as usize {
            match t.procs[p].nodes[n] {
                Node::Read { .. } => insert(&mut next.settings, (p, n)),
                Node::Set { .. } if operand_dirty(t, d, p, n) => {
                    insert(&mut next.settings, (p, n));
                }
                Node::Recv { queue, .. } if d.blank.contains(&queue) => {
                    insert(&mut next.settings, (p, n));
                }
                Node::Send { queue, var, .. } if use_dirty(t, d, p, n, var) => {
                    insert(&mut next.blank, queue);
                }
                Node::Call {
                    proc, count, args, ..
                } => {
                    for i in 0..count {
                        if use_dirty(t, d, p, n, args[i as usize]) {
                            insert(&mut next.drop, (proc as usize, i));
                        }
                    }
                }
                _ => {}
            }
        }
    }
    next.settings.sort();
    next.drop.sort();
    next.blank.sort();
    next
}

fn insert<T: PartialEq>(items: &mut Vec<T>, item: T) {
    if !items.contains(&item) {
        items.push(item);
    }
}

/// Whether a `set` or a `test` has a dirty use.
fn operand_dirty(t: &Table, d: &Dirty, p: usize, n: usize) -> bool {
    let (Node::Set { a, b, .. } | Node::Test { a, b, .. }) = t.procs[p].nodes[n] else {
        return false;
    };
    [a, b].into_iter().any(|operand| match operand {
        Operand::Var(v) => use_dirty(t, d, p, n, v),
        Operand::Const(_) => false,
    })
}

/// Whether a path leads from a dirty setting of v to node n with no setting of v between.
fn use_dirty(t: &Table, d: &Dirty, p: usize, n: usize, v: u8) -> bool {
    let from_entry = d.drop.contains(&(p, v)) && path(t, p, vec![0], n, v);
    from_entry
        || d.settings.iter().any(|&(q, m)| {
            let nodes = &t.procs[p].nodes;
            q == p && set_by(&nodes[m]) == Some(v) && path(t, p, after(&nodes[m]), n, v)
        })
}

/// Whether one of the nodes is n or leads there through nodes that do not set v.
fn path(t: &Table, p: usize, mut at: Vec<usize>, n: usize, v: u8) -> bool {
    let mut seen = Vec::new();
    while let Some(m) = at.pop() {
        if m == n {
            return true;
        }
        if seen.contains(&m) {
            continue;
        }
        seen.push(m);
        let node = &t.procs[p].nodes[m];
        if set_by(node) != Some(v) {
            at.extend(after(node));
        }
    }
    false
}

fn set_by(node: &Node) -> Option<u8> {
    match *node {
        Node::Set { var, .. } | Node::Read { var, .. } | Node::Recv { var, .. } => Some(var),
        _ => None,
    }
}

/// The nodes after a node.
fn after(node: &Node) -> Vec<usize> {
    match *node {
        Node::Start { to }
        | Node::Set { to, .. }
        | Node::Read { to, .. }
        | Node::Call { to, .. }
        | Node::Wait { to, .. }
        | Node::Signal { to, .. }
        | Node::Send { to, .. }
        | Node::Recv { to, .. }
        | Node::Assert { to, .. }
        | Node::Out { to, .. } => bits(to).collect(),
        Node::Test { yes, no, .. } => bits(yes).chain(bits(no)).collect(),
        Node::Absent | Node::Return => Vec::new(),
    }
}

fn kept(t: &Table, d: &Dirty, p: usize, n: usize) -> bool {
    match t.procs[p].nodes[n] {
        Node::Read { .. } => false,
        Node::Set { .. } | Node::Test { .. } => !operand_dirty(t, d, p, n),
        _ => true,
    }
}

/// The kept nodes that an arc reaches through nodes that are not kept.
fn new_arc(t: &Table, d: &Dirty, p: usize, arc: Arc) -> Arc {
    let mut at: Vec<usize> = bits(arc).collect();
    let (mut seen, mut reached) = (Vec::new(), 0);
    while let Some(m) = at.pop() {
        if kept(t, d, p, m) {
            reached |= 1 << m;
        } else if !seen.contains(&m) {
            seen.push(m);
            at.extend(after(&t.procs[p].nodes[m]));
        }
    }
    reached
}

fn closed_node(t: &Table, d: &Dirty, p: usize, n: usize) -> Node {
    let mut node = t.procs[p].nodes[n];
    let lead = |arc: &mut Arc| *arc = new_arc(t, d, p, *arc);
    match &mut node {
        Node::Absent | Node::Return | Node::Read { .. } => {}
        Node::Start { to }
        | Node::Set { to, .. }
        | Node::Wait { to, .. }
        | Node::Signal { to, .. } => lead(to),
        Node::Test { yes, no, .. } => {
            lead(yes);
            lead(no);
        }
        Node::Call { proc, args, to, .. } => {
            for &(_, v) in d.drop.iter().filter(|(q, _)| *q == *proc as usize) {
                args[v as usize] = GONE;
            }
            lead(to);
        }
        Node::Send { queue, var, to } | Node::Recv { queue, var, to } => {
            if d.blank.contains(queue) {
                *var = GONE;
            }
            lead(to);
        }
        Node::Assert { var, to } | Node::Out { var, to } => {
            if use_dirty(t, d, p, n, *var) {
                *var = GONE;
            }
            lead(to);
        }
    }
    node
}
