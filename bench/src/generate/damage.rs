//! Faults put into texts and tables.

use crate::plain::table::*;
use crate::random::Random;

/// Changes, removes or adds one byte to three.
pub fn bytes(text: &mut Vec<u8>, r: &mut Random) {
    for _ in 0..r.pick(&[1, 1, 1, 2, 3]) {
        if text.is_empty() {
            return;
        }
        let at = r.below(text.len());
        match r.below(4) {
            0 => {
                text.remove(at);
            }
            1 => text.insert(at, byte(r)),
            2 => text[at] = text[at].wrapping_add(r.pick(&[1, 255])),
            _ => text[at] = byte(r),
        }
    }
}

/// A byte, those of the language more often.
fn byte(r: &mut Random) -> u8 {
    if r.once_in(8) {
        return r.next() as u8;
    }
    r.pick(b"00112233456789---,,,   \n\n==vnoeskt\r\t\0")
}

/// Numbers, and what is none.
const NUMBERS: &[&str] = &[
    "0",
    "1",
    "2",
    "3",
    "4",
    "5",
    "6",
    "7",
    "8",
    "9",
    "10",
    "15",
    "16",
    "17",
    "31",
    "32",
    "33",
    "100",
    "254",
    "255",
    "256",
    "00",
    "01",
    "007",
    "",
    "2147483647",
    "2147483648",
    "4294967295",
    "4294967296",
    "4294967297",
    "99999999",
    "100000000",
    "18446744073709551615",
    "18446744073709551616",
    "99999999999999999999",
    "340282366920938463463374607431768211456",
    "1\r",
    "x",
    "4294967298",
    "18446744073709551617",
];

/// Operands, constants among them, and what is none.
const OPERANDS: &[&str] = &[
    "0",
    "1",
    "-1",
    "2147483647",
    "2147483648",
    "-0",
    "-00",
    "-01",
    "-",
    "--",
    "+1",
    "-2147483648",
    "-2147483649",
    "-99999999999999999999",
    "v",
    "v0",
    "v1",
    "v2",
    "v15",
    "v16",
    "v00",
    "v-1",
    "v01",
    "V1",
    "v4294967296",
    "v99999999999999999999",
    "a",
    "v0\r",
    "1v",
    "-v0",
    "v,",
];

/// Operations, and what is none.
const OPS: &[&str] = &[
    "add", "sub", "and", "or", "xor", "shr", "lt", "eq", "ltx", "mul", "Add", "ad", "addx", "lt,",
    "or\r", "",
];

/// Kinds of nodes, and what is none.
const KINDS: &[&str] = &[
    "start", "set", "test", "read", "call", "wait", "signal", "send", "recv", "assert", "out",
    "return", "returns", "reads", "model", "Set", "se", "outx", "set,", "wait\r", "",
];

/// Other words, and what is none.
const CHOICES: &[&str] = &[
    "yes", "no", "open", "closed", "maybe", "Open", "opens", "yes,", "n", "closed\r", "",
];

/// Lists, in order or not, and what is none.
const LISTS: &[&str] = &[
    "",
    "1",
    "2",
    "none",
    "None",
    "nonex",
    "non",
    "none,",
    "none,1",
    "none,none",
    "1,2",
    "2,1",
    "1,1",
    "1,2,3",
    "0,1",
    "0,0",
    "0,0,0,0",
    "0,0,0,0,0",
    "0,0,0,0,0,0,0,0,0",
    "-,-",
    "0,-",
    "-,0",
    "1,",
    ",1",
    ",",
    "1,,2",
    "1,none",
    "1,2,",
    "1,2,2",
    "2,3,1",
    "1, 2",
    "1,x",
    "1,2\r",
    "none\r",
    "40,3",
    "99,x",
    "3,40",
    "1,02",
    "9,10",
    "10,9",
    "1,2,3,4,5,6,7,8,9,10,11,12,13,14,15",
    "99999999999999999998,99999999999999999999",
    "99999999999999999999,99999999999999999998",
    "99999999999999999999,99999999999999999999",
    "99999999,100000000",
    "100000000,99999999",
    "100000000,100000001",
    "100000001,100000000",
    "1,99999999999999999999",
    "999999999999999999,1000000000000000000",
    "1000000000000000000,999999999999999999",
    "4294967297,2",
    "1,4294967298",
    "-,x",
    "x,1",
    "-,",
    "2,-1",
    "1;2",
];

/// A value for a key, or for any other; right or wrong.
fn value_for(key: &[u8], r: &mut Random) -> &'static str {
    let all = [NUMBERS, OPERANDS, OPS, KINDS, CHOICES, LISTS];
    let items = match key {
        _ if r.once_in(3) => r.pick(&all),
        b"a" | b"b" => OPERANDS,
        b"op" => OPS,
        b"kind" => KINDS,
        b"form" | b"blank" => CHOICES,
        b"to" | b"yes" | b"no" | b"drop" | b"args" => LISTS,
        _ => NUMBERS,
    };
    r.pick(items)
}

/// The key before a value.
fn key_of(text: &[u8], start: usize) -> &[u8] {
    let front = &text[..start.saturating_sub(1)];
    let at = front.iter().rposition(|b| matches!(b, b' ' | b'\n'));
    &front[at.map_or(0, |at| at + 1)..]
}

/// Replaces or changes one value to three.
pub fn values(text: &mut Vec<u8>, r: &mut Random) {
    for _ in 0..r.pick(&[1, 1, 1, 1, 2, 3]) {
        value(text, r);
    }
}

/// Replaces or changes one value, and gives its extent then; none if the text has no value.
fn value(text: &mut Vec<u8>, r: &mut Random) -> Option<(usize, usize)> {
    let places = places_of(text);
    if places.is_empty() {
        return None;
    }
    let (start, end) = match r.below(6) {
        0..=2 => r.pick(&places),
        _ => place_of_sort(text, &places, r),
    };
    let mut value = text[start..end].to_vec();
    match r.below(12) {
        0 => value.insert(0, r.pick(b"0-v1")),
        1 => value.extend_from_slice(
            r.pick(&[
                ",1", ",31", ",32", "0", ",0", ",-", "9", " ", ",", "\r", "x",
            ])
            .as_bytes(),
        ),
        2 | 3 => nudge(&mut value, r),
        4 => {
            let (from, to) = r.pick(&places);
            value = text[from..to].to_vec();
        }
        5 | 6 => reorder(&mut value, r),
        7 => {
            let mut digits = vec![b'1' + r.below(9) as u8];
            digits.extend((0..r.below(45)).map(|_| b'0' + r.below(10) as u8));
            value = digits;
        }
        8 => value = long_list(r),
        _ => value = value_for(key_of(text, start), r).as_bytes().to_vec(),
    }
    let len = value.len();
    text.splice(start..end, value);
    Some((start, start + len))
}

/// The place of a list of two items and more, if there is one, or of a value with a key that is
/// picked among those of the text.
fn place_of_sort(text: &[u8], places: &[(usize, usize)], r: &mut Random) -> (usize, usize) {
    let mut keys: Vec<&[u8]> = places.iter().map(|&(at, _)| key_of(text, at)).collect();
    keys.sort_unstable();
    keys.dedup();
    let (key, list) = (r.pick(&keys), r.once_in(3));
    let fits = |&(start, end): &(usize, usize)| match list {
        true => text[start..end].contains(&b','),
        false => key_of(text, start) == key,
    };
    let fitting: Vec<_> = places.iter().copied().filter(fits).collect();
    match fitting.is_empty() {
        true => r.pick(places),
        false => r.pick(&fitting),
    }
}

/// A list of one item many times, about 256 times too.
fn long_list(r: &mut Random) -> Vec<u8> {
    let item = r.pick(&["0", "1", "-"]);
    let len = r.pick(&[5, 9, 16, 255, 256, 257, 258, 260, 1000]);
    vec![item; len].join(",").into_bytes()
}

/// The extents of the values of a text.
fn places_of(text: &[u8]) -> Vec<(usize, usize)> {
    let mut places = Vec::new();
    let mut start = None;
    for (i, &b) in text.iter().enumerate() {
        match b {
            b'=' => start = Some(i + 1),
            b' ' | b'\n' => {
                if let Some(start) = start.take() {
                    places.push((start, i));
                }
            }
            _ => {}
        }
    }
    places
}

/// Makes a number one more or less.
fn nudge(value: &mut Vec<u8>, r: &mut Random) {
    let text = String::from_utf8_lossy(value).into_owned();
    let (front, number) = match text.strip_prefix('v') {
        Some(number) => ("v", number),
        None => ("", text.as_str()),
    };
    if let Ok(n) = number.parse::<i64>() {
        *value = format!("{front}{}", n + r.pick(&[1, -1])).into_bytes();
    }
}

/// Swaps two items of a list, turns it round, doubles one item, removes one, or adds `none` or an
/// empty one.
fn reorder(value: &mut Vec<u8>, r: &mut Random) {
    let mut items: Vec<Vec<u8>> = value.split(|&b| b == b',').map(<[u8]>::to_vec).collect();
    let (i, j) = (r.below(items.len()), r.below(items.len()));
    match r.below(6) {
        0 => items.swap(i, j),
        1 => items.reverse(),
        2 => items.insert(i, items[j].clone()),
        3 => items.insert(i, b"none".to_vec()),
        4 => items.insert(r.pick(&[0, i, items.len()]), Vec::new()),
        _ => {
            items.remove(i);
        }
    }
    *value = items.join(&b',');
}

/// What may stand where a line is due, broken off or wrong.
const BEGINNINGS: &[&str] = &[
    "n",
    "no",
    "nod",
    "node",
    "node=",
    "node=3",
    "node=x",
    "node=x ",
    "node=1 ",
    "node=1 kx",
    "node=31 ki",
    "nox",
    "nodx",
    "nodf",
    "nodes",
    "node\n",
    "nod ",
    "nod=",
    "Node=1 ",
    "p",
    "pro",
    "proc=",
    "prod",
    "proc\n",
    "proc=8 ",
    "\n",
    " ",
    "\0",
    "x",
    "node=31 kind=return",
    "node=31 kind=return\n",
    "node=31 kind=return \n",
];

/// Cuts a text: anywhere, where a procedure's or a node's line begins, within a key, or about the end
/// of a value; what stands before the cut may be wrong.
pub fn cut(text: &mut Vec<u8>, r: &mut Random) {
    match r.below(8) {
        0 | 1 => text.truncate(r.below(text.len())),
        2..=4 => cut_line(text, r),
        5 => cut_key(text, r),
        _ => cut_value(text, r),
    }
}

/// Cuts where a line begins, a node's or a procedure's mostly, and puts a beginning there.
fn cut_line(text: &mut Vec<u8>, r: &mut Random) {
    let starts: Vec<usize> = (0..text.len())
        .filter(|&i| i == 0 || text[i - 1] == b'\n')
        .filter(|&i| matches!(text[i], b'n' | b'p') || r.once_in(4))
        .collect();
    if let Some(last) = starts.last().copied() {
        let at = r.pick(&starts);
        text.truncate(if r.once_in(4) { last } else { at });
        text.extend_from_slice(r.pick(BEGINNINGS).as_bytes());
    }
}

/// Cuts within a key or the space before it; its last byte may be another.
fn cut_key(text: &mut Vec<u8>, r: &mut Random) {
    let keys: Vec<(usize, usize)> = (0..text.len())
        .filter(|&i| i == 0 || matches!(text[i], b' ' | b'\n'))
        .filter_map(|i| Some((i, text[i..].iter().position(|&b| b == b'=')?)))
        .collect();
    if keys.is_empty() {
        return;
    }
    let (start, len) = r.pick(&keys);
    text.truncate(start + r.within(0, len + 1));
    if let (Some(last), true) = (text.last_mut(), r.once_in(2)) {
        *last = match r.once_in(2) {
            true => byte(r),
            false => last.wrapping_add(r.pick(&[1, 255])),
        };
    }
}

/// Cuts within a changed value, behind it, or one byte further.
fn cut_value(text: &mut Vec<u8>, r: &mut Random) {
    if let Some((start, end)) = value(text, r) {
        let at = match r.below(3) {
            0 => r.within(start, end),
            1 => end,
            _ => end + 1,
        };
        text.truncate(at);
    }
}

/// Swaps, doubles, removes or moves lines.
pub fn lines(text: &mut Vec<u8>, r: &mut Random) {
    let mut lines: Vec<Vec<u8>> = text
        .split_inclusive(|&b| b == b'\n')
        .map(<[u8]>::to_vec)
        .collect();
    for _ in 0..r.pick(&[1, 1, 1, 2]) {
        if lines.is_empty() {
            break;
        }
        let (i, j) = (r.below(lines.len()), r.below(lines.len()));
        let next = (i + 1) % lines.len();
        match r.below(8) {
            0 => lines.swap(i, j),
            1 => lines.swap(i, next),
            2 => lines.insert(i, lines[j].clone()),
            3 => {
                lines.remove(i);
            }
            4 => {
                let line = lines.remove(i);
                lines.insert(j.min(lines.len()), line);
            }
            5 | 6 => procedure_end(&mut lines, r),
            _ => {
                lines[i] = r
                    .pick(&[&b"\n"[..], b" \n", b"node=1 kind=return\n", b""])
                    .to_vec()
            }
        }
    }
    *text = lines.concat();
}

/// Removes a procedure's last lines, or adds one to them.
fn procedure_end(lines: &mut Vec<Vec<u8>>, r: &mut Random) {
    let ends: Vec<usize> = (1..=lines.len())
        .filter(|&i| lines.get(i).is_none_or(|line| line.starts_with(b"proc=")))
        .collect();
    let end = r.pick(&ends);
    match r.below(3) {
        0 => {
            let line = r.pick(BEGINNINGS).as_bytes().to_vec();
            lines.insert(end, line);
        }
        1 => lines.insert(end, lines[end - 1].clone()),
        _ => drop(lines.drain(end - r.within(1, end.min(3))..end)),
    }
}

/// Adds bytes after the end.
pub fn tail(text: &mut Vec<u8>, r: &mut Random) {
    match r.below(10) {
        0 | 1 => text.push(byte(r)),
        2 => text.extend_from_within(..),
        3 => text.resize(65_536, byte(r)),
        4 => text.resize(65_537, byte(r)),
        5 => text.resize(65_537 + r.below(1000), byte(r)),
        _ => text.extend_from_slice(r.pick(BEGINNINGS).as_bytes()),
    }
}

/// Words of the language in no order.
pub fn noise(r: &mut Random) -> Vec<u8> {
    const WORDS: &[&str] = &[
        "trap=1",
        "form=open",
        "form=closed",
        "\n",
        "\n",
        "tasks=1",
        "procs=1",
        "sems=0",
        "queues=0",
        " ",
        " ",
        " ",
        "task=0",
        "top=0",
        "proc=0",
        "params=0",
        "vars=0",
        "nodes=2",
        "node=0",
        "kind=start",
        "to=1",
        "=",
        "node=1",
        "kind=return",
        "drop=none",
    ];
    let mut text = Vec::new();
    if r.once_in(2) {
        text.extend_from_slice(b"trap=1 form=open\ntasks=1 procs=1 sems=0 queues=0\n");
    }
    for _ in 0..r.below(30) {
        text.extend_from_slice(r.pick(WORDS).as_bytes());
    }
    text
}

/// Changes what the rules judged after all lines are about; four tables in ten then break one.
pub fn break_rules(t: &mut Table, r: &mut Random) {
    for _ in 0..r.pick(&[1, 1, 2, 3]) {
        let i = r.below(t.proc_count as usize);
        let j = r.below(t.procs[i].count as usize);
        match r.below(6) {
            0 => {
                let top = t.tops[r.below(t.task_count as usize)] as usize;
                t.procs[top].drop &= !(1 << r.below(4));
            }
            1 => {
                let p = &mut t.procs[i];
                p.params = (r.below(5) as u8).min(p.vars);
                p.drop &= all_params(p.params);
            }
            2 if t.closed => {
                t.procs[i].nodes[j.max(1)] = Node::Absent;
            }
            3 if t.closed && t.queue_count > 0 => {
                let queue = &mut t.queues[r.below(t.queue_count as usize)];
                queue.blank = !queue.blank;
            }
            _ => break_node(t, i, j, r),
        }
    }
}

/// Changes arguments, `-` or a target of a node, or of one after it.
fn break_node(t: &mut Table, i: usize, j: usize, r: &mut Random) {
    let p = &mut t.procs[i];
    let (vars, closed) = (p.vars, t.closed);
    let removed = |var: &mut u8, r: &mut Random| match *var {
        GONE if vars > 0 => *var = r.below(vars as usize) as u8,
        _ if closed => *var = GONE,
        _ => {}
    };
    for node in &mut p.nodes[j..p.count as usize] {
        match node {
            Node::Call { count, args, .. } => {
                match r.below(3) {
                    0 => *count = r.below(5) as u8,
                    1 => removed(&mut args[r.below(PARAMS)], r),
                    _ => *count = (*count + 1).min(4),
                }
                for arg in &mut args[*count as usize..] {
                    *arg = 0;
                }
                return;
            }
            Node::Send { var, .. } | Node::Recv { var, .. } if r.once_in(2) => {
                removed(var, r);
                return;
            }
            Node::Set { to, .. } | Node::Wait { to, .. } | Node::Out { to, .. }
                if closed && r.once_in(3) =>
            {
                *to |= 1 << r.below(32);
                return;
            }
            _ => {}
        }
    }
}
