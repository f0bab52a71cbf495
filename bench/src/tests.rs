//! Examples of the documents and properties of the plain implementation.

use crate::generate::runs;
use crate::generate::tables::{self, Size};
use crate::generate::{extremes, lines_of};
use crate::plain::check::check;
use crate::plain::close::close_valid;
use crate::plain::explore::{explore_valid, Found, DEPTH};
use crate::plain::fault::{Fault, Refusal};
use crate::plain::programs::{close_text, explore_text, read_text, run_text, write_text};
use crate::plain::read::read;
use crate::plain::run::{run_valid, Answer, Machine, State};
use crate::plain::table::{Node, Op, Table, GONE, PARAMS};
use crate::random::Random;
use crate::{compare, handmade, naive};

const OPEN: &str = "\
trap=1 form=open
tasks=1 procs=1 sems=1 queues=0
task=0 top=0
sem=0 count=1
proc=0 params=0 vars=3 nodes=8
node=0 kind=start to=1
node=1 kind=read var=0 to=2
node=2 kind=set var=1 op=add a=v2 b=1 to=3
node=3 kind=test op=lt a=v0 b=100 yes=4 no=5
node=4 kind=wait sem=0 to=6
node=5 kind=out var=0 to=7
node=6 kind=signal sem=0 to=3
node=7 kind=return
";

const CLOSED: &str = "\
trap=1 form=closed
tasks=1 procs=1 sems=1 queues=0
task=0 top=0
sem=0 count=1
proc=0 params=0 vars=3 nodes=8 drop=none
node=0 kind=start to=2
node=2 kind=set var=1 op=add a=v2 b=1 to=4,5
node=4 kind=wait sem=0 to=6
node=5 kind=out var=- to=7
node=6 kind=signal sem=0 to=4,5
node=7 kind=return
";

fn closing(text: &str) -> String {
    let mut out = vec![0; 1 << 16];
    let len = close_text(text.as_bytes(), &mut out);
    String::from_utf8_lossy(&out[..len]).into_owned()
}

fn refusal(text: &str) -> (u8, u32) {
    match read_text(text.as_bytes()) {
        Ok(()) => (0, 0),
        Err(Refusal { number, line }) => (number, line),
    }
}

/// The open example with one piece of text in place of another.
fn with(old: &str, new: &str) -> String {
    assert!(OPEN.contains(old));
    OPEN.replacen(old, new, 1)
}

/// A text up to the start of a procedure with so many nodes declared.
fn small(nodes: &str) -> String {
    format!(
        "trap=1 form=open\ntasks=1 procs=1 sems=0 queues=0\ntask=0 top=0\n\
         proc=0 params=0 vars=1 nodes={nodes}\nnode=0 kind=start to=1\n"
    )
}

#[test]
fn the_pair_of_document_01() {
    assert_eq!(closing(OPEN), CLOSED);
    assert_eq!(closing(CLOSED), "refused=9 line=0\n");
}

#[test]
fn operations() {
    assert_eq!(Op::Add.apply(2147483647, 1), -2147483648);
    assert_eq!(Op::Sub.apply(-2147483648, 1), 2147483647);
    assert_eq!(Op::Shr.apply(-8, 33), -4);
    assert_eq!(Op::Shr.apply(-1, -1), -1);
    assert_eq!(Op::Lt.apply(-1, 0), 1);
}

#[test]
fn a_dropped_cycle_leads_to_none() {
    let text = small("4")
        + "node=1 kind=read var=0 to=2\n\
           node=2 kind=test op=lt a=v0 b=1 yes=1 no=2\n\
           node=3 kind=return\n";
    assert!(closing(&text).contains("node=0 kind=start to=none\n"));
}

#[test]
fn faults_and_lines() {
    assert_eq!(refusal(""), (20, 1));
    assert_eq!(refusal("\n"), (2, 1));
    assert_eq!(refusal(&small("33")), (3, 4));
    assert_eq!(refusal(&small("1")), (3, 4));
    assert_eq!(refusal(&with("to=1\n", "to=0\n")), (5, 6));
    assert_eq!(refusal(&with("b=100", "b=2147483648")), (3, 9));
    assert_eq!(refusal(&with("b=100", "b=-0")), (19, 9));
    assert_eq!(refusal(&with("tasks=1", "tasks=9\n")), (3, 2));
    assert_eq!(refusal("trap=1 form=open\ntasks=9"), (20, 2));
    assert_eq!(refusal("trap=1 form=open\ntasks=9 "), (3, 2));
    assert_eq!(
        refusal(&with("node=1", "node=99999999999999999999")),
        (4, 7)
    );
    assert_eq!(refusal(&with("to=7", "to=99999999999999999999")), (5, 11));
    assert_eq!(refusal(&with("to=7", "to=99,x")), (19, 11));
    assert_eq!(refusal(&(OPEN.to_string() + "\n")), (20, 14));
    assert_eq!(refusal(&OPEN[..OPEN.len() - 1]), (20, 13));
    assert_eq!(refusal(&"x".repeat(65_537)), (1, 0));
    let list = |items: &str| refusal(&CLOSED.replace("to=4,5", &format!("to={items}")));
    let large = "99999999999999999998,99999999999999999999";
    assert_eq!(list(large), (5, 7));
    assert_eq!(list("99999999999999999999,99999999999999999998"), (19, 7));
    assert_eq!(list("4,4"), (19, 7));
    assert_eq!(list("3"), (7, 7));
}

/// A closed text of two procedures.
const TWO: &str = "\
trap=1 form=closed
tasks=1 procs=2 sems=1 queues=1
task=0 top=0
sem=0 count=1
queue=0 cap=1 blank=no
proc=0 params=2 vars=2 nodes=3 drop=0,1
node=0 kind=start to=1,2
node=1 kind=call proc=1 args=none to=2
node=2 kind=return
proc=1 params=0 vars=1 nodes=4 drop=none
node=0 kind=start to=2
node=2 kind=out var=0 to=none
";

/// What a text is refused by with one piece in place of another.
fn changed(text: &str, old: &str, new: &str) -> (u8, u32) {
    assert!(text.contains(old), "{old}");
    refusal(&text.replacen(old, new, 1))
}

/// A text up to a piece, with another behind it.
fn cut(text: &str, piece: &str, behind: &str) -> (u8, u32) {
    let at = text.find(piece).expect("the piece is there");
    refusal(&(text[..at].to_string() + behind))
}

#[test]
fn wrong_words_have_number_2() {
    for (old, new, line) in [
        ("op=add", "op=mul", 8),
        ("op=lt", "op=add", 9),
        ("form=open", "form=Open", 1),
        ("form=open", "form=", 1),
        ("form=open", "form=open\r", 1),
        ("kind=wait", "kind=await", 10),
        ("kind=return", "kind=return\r", 13),
        ("tasks=1 ", "tasks=1  ", 2),
        ("tasks=1 ", "tasks=1\n", 2),
        ("top=0\n", "top=0 \n", 3),
        ("tasks=", "task=", 2),
        ("var=1 op=add", "op=add var=1", 8),
    ] {
        assert_eq!(changed(OPEN, old, new), (2, line), "{new}");
    }
    assert_eq!(changed(TWO, "blank=no", "blank=maybe"), (2, 5));
    assert_eq!(changed(TWO, "kind=out", "kind=read"), (2, 12));
    assert_eq!(refusal("\n"), (2, 1));
}

#[test]
fn misspelt_values_have_number_19() {
    for (old, new, line) in [
        ("trap=1", "trap=01", 1),
        ("tasks=1", "tasks=", 2),
        ("node=1 ", "node=x ", 7),
        ("var=1", "var=v0", 8),
        ("a=v2", "a=V0", 8),
        ("a=v2", "a=-0", 8),
        ("var=0 to=7", "var=- to=7", 11),
        ("to=7", "to=4,5", 11),
        ("to=7", "to=none", 11),
        ("to=2\n", "to=2\r\n", 7),
        ("sem=0 to=6", "sem=-1 to=6", 10),
    ] {
        assert_eq!(changed(OPEN, old, new), (19, line), "{new}");
    }
    for (old, new, line) in [
        ("args=none", "args=x", 8),
        ("args=none", "args=-,", 8),
        ("drop=0,1", "drop=nono", 6),
        ("drop=0,1", "drop=none,1", 6),
        ("drop=0,1", "drop=0,", 6),
        ("drop=0,1", "drop=1,0", 6),
        ("drop=0,1", "drop=0,0", 6),
        ("drop=0,1", "drop=9,x", 6),
        ("to=1,2", "to=1,", 7),
        ("to=1,2", "to=2,1", 7),
        ("to=1,2", "to=1,1", 7),
        ("to=1,2", "to=99,1", 7),
    ] {
        assert_eq!(changed(TWO, old, new), (19, line), "{new}");
    }
    assert_eq!(changed(TWO, "drop=0,1", "drop=0,9"), (5, 6));
    assert_eq!(refusal("trap=1 form=open\ntasks=x "), (19, 2));
}

#[test]
fn early_ends_have_number_20() {
    assert_eq!(refusal(""), (20, 1));
    assert_eq!(refusal("trap=1 form=open\ntasks=x"), (20, 2));
    assert_eq!(refusal("trap=1 form=Op"), (20, 1));
    for behind in ["node=7 ki", "node=7 ", "node=7", "node=x", "no", ""] {
        assert_eq!(cut(OPEN, "node=7", behind), (20, 13), "{behind}");
    }
    for behind in ["node=7 kx", "nox", "proc", "\n"] {
        assert_eq!(cut(OPEN, "node=7", behind), (2, 13), "{behind}");
    }
    for len in 0..OPEN.len() {
        assert_eq!(refusal(&OPEN[..len]).0, 20, "{len}");
    }
}

/// In closed text a further node or the next procedure may stand behind a node's line.
#[test]
fn cuts_within_node_have_number_20() {
    for before in ["node=1 kind=call", "node=2 kind=return", "proc=1 params"] {
        let line = match before {
            "node=1 kind=call" => 8,
            "node=2 kind=return" => 9,
            _ => 10,
        };
        for behind in ["", "n", "no", "nod", "node", "node=", "p", "proc", "proc="] {
            assert_eq!(cut(TWO, before, behind), (20, line), "{behind}");
        }
        for behind in ["nox", "nodf", "x", "\n", "prod", "node\n", " "] {
            assert_eq!(cut(TWO, before, behind), (2, line), "{behind}");
        }
        assert_eq!(cut(TWO, before, "node=x "), (19, line));
    }
    for behind in ["", "no", "node", "pro", "proc=1"] {
        let number = if "node=".starts_with(behind) { 20 } else { 2 };
        assert_eq!(cut(TWO, "node=0 kind=start to=2", behind), (number, 11));
    }
}

#[test]
fn bytes_after_the_end_have_number_20() {
    let tails = ["n", "nod", "nox", "proc=", "proc=2 ", "\n", " ", "\0", "x"];
    for behind in tails {
        assert_eq!(refusal(&(OPEN.to_string() + behind)), (20, 14), "{behind}");
        assert_eq!(refusal(&(TWO.to_string() + behind)), (20, 13), "{behind}");
    }
    assert_eq!(refusal(&(OPEN.to_string() + "node=8 ")), (20, 14));
    let further = |line: &str| refusal(&(TWO.to_string() + line));
    assert_eq!(further("node=3 kind=return\n"), (0, 0));
    assert_eq!(further("node=3 kind=return"), (20, 13));
    assert_eq!(further("node=4 "), (4, 13));
    assert_eq!(further("node=2 "), (4, 13));
    assert_eq!(further("node=x "), (19, 13));
    assert_eq!(further("node=x"), (20, 13));
    assert_eq!(further("node=3 kx"), (2, 13));
}

/// The fault of a table after a change by hand.
fn by_hand(text: &str, change: impl Fn(&mut Table)) -> u8 {
    let mut table = Table::default();
    assert_eq!(read(text.as_bytes(), &mut table), Ok(()));
    change(&mut table);
    check(&table).map_or_else(|refusal| refusal.number, |()| 0)
}

#[test]
fn faults_of_hand_made_tables() {
    let start = |to| by_hand(OPEN, |t| t.procs[0].nodes[0] = Node::Start { to });
    assert_eq!((start(2), start(6), start(0), start(1)), (0, 19, 19, 5));
    let out = |text, var| {
        by_hand(text, |t| {
            t.procs[0].nodes[5] = Node::Out { var, to: 1 << 7 }
        })
    };
    assert_eq!((out(OPEN, GONE), out(CLOSED, GONE)), (19, 0));
    let absent = |text, proc: usize, nodes: std::ops::Range<usize>| {
        by_hand(text, |t| {
            t.procs[proc].nodes[nodes.clone()].fill(Node::Absent)
        })
    };
    let two_open = TWO
        .replace("closed", "open")
        .replace(" blank=no", "")
        .replace(" drop=0,1", "")
        .replace(" drop=none", "")
        .replace("start to=1,2", "start to=1")
        .replace("start to=2", "start to=1")
        .replace("node=2 kind=out var=0 to=none\n", "node=1 kind=return\n")
        .replace("nodes=4", "nodes=2");
    assert_eq!(absent(&two_open, 0, 1..2), 4);
    assert_eq!(absent(&two_open, 0, 2..3), 2);
    assert_eq!(absent(&two_open, 0, 0..3), 2);
    assert_eq!(absent(&two_open, 1, 1..2), 20);
    assert_eq!(absent(TWO, 0, 0..1), 4);
    assert_eq!(absent(TWO, 0, 0..3), 2);
    assert_eq!(absent(TWO, 1, 0..3), 20);
    assert_eq!(by_hand(OPEN, |t| t.sems[1] = 1), 2);
    assert_eq!(by_hand(OPEN, |t| t.procs[0].drop = 1), 2);
}

#[test]
fn the_longest_texts() {
    let open = lines_of(&extremes::longest_open());
    let closed = lines_of(&extremes::longest_closed());
    assert_eq!((open.len(), closed.len()), (16_845, 57_855));
    for text in [open, closed] {
        let mut out = vec![0; text.len()];
        assert_eq!(write_text(&text, &mut out), Ok(text.len()));
        assert_eq!(out, text);
        out.pop();
        out.fill(7);
        let refused = write_text(&text, &mut out);
        assert_eq!(refused, Err(Fault::Buffer.at(0)));
        assert!(out.iter().all(|&b| b == 7));
    }
}

#[test]
fn hard_tables_close_to_texts_that_read_back() {
    for (name, table) in extremes::hard() {
        let text = String::from_utf8(lines_of(&table)).unwrap();
        assert_eq!(refusal(&text), (0, 0), "{name}");
        assert_eq!(refusal(&closing(&text)), (0, 0), "{name}");
    }
}

#[test]
fn a_run_of_the_example() {
    let mut log = [9; 20];
    let mut out = vec![0; 1 << 12];
    let run = |log: &mut [u8], out: &mut [u8], most| {
        let len = run_text(OPEN.as_bytes(), &[0, 0, 0, 0], &[5, 5], most, log, out);
        String::from_utf8_lossy(&out[..len]).into_owned()
    };
    assert!(run(&mut log, &mut out, 1).starts_with("steps=2 used=1 stop=11\n"));
    assert_eq!(log[16..], [9; 4]);
    assert!(run(&mut log, &mut out, 0).starts_with("steps=0 used=0 stop=14\n"));
}

#[test]
fn hand_made_tables_are_judged_as_their_lines() {
    assert!(handmade::handmade(2_000, 1));
}

/// Five arguments `-` where no variable is declared: the lines have fault 6, and so has the table made of them.
#[test]
fn a_fifth_argument_repeats_the_fourth() {
    let lines = |args: &str| {
        format!(
            "trap=1 form=closed\ntasks=1 procs=1 sems=0 queues=0\ntask=0 top=0\n\
             proc=0 params=0 vars=0 nodes=3 drop=none\nnode=0 kind=start to=1\n\
             node=1 kind=call proc=0 args={args} to=2\nnode=2 kind=return\n"
        )
    };
    let mut table = Table::default();
    assert_eq!(read(lines("none").as_bytes(), &mut table), Ok(()));
    let Node::Call { count, args, .. } = &mut table.procs[0].nodes[1] else {
        unreachable!()
    };
    (*count, *args) = (5, [GONE; PARAMS]);
    assert_eq!(lines_of(&table), lines("-,-,-,-,-").as_bytes());
    assert_eq!(refusal(&lines("-,-,-,-,-")), (6, 6));
    assert_eq!(check(&table), Err(Fault::Arguments.at(0)));
}

#[test]
fn generated_cases_agree() {
    assert!(compare::compare(2_000, 1));
}

#[test]
fn the_closer_gives_what_the_definitions_give() {
    let close = |open: &Table| {
        let mut closed = Table::default();
        close_valid(open, &mut closed).unwrap();
        closed
    };
    for seed in 0..2_000 {
        let mut r = Random::new(seed);
        let size = r.pick(&[Size::Tiny, Size::Tiny, Size::Small, Size::Middle]);
        let open = tables::open(size, &mut r);
        assert!(close(&open) == naive::close(&open), "seed {seed}");
    }
    for (name, open) in extremes::hard() {
        assert!(close(&open) == naive::close(&open), "{name}");
    }
}

/// The closed state and log entry after a step that leads to the same node as the open one.
fn closed_step(closed: &Table, before: &State, task: u8, open: &State) -> (State, [u8; 8]) {
    let next = |state: &State| {
        let task = &state.tasks[task as usize];
        task.frames[task.depth as usize - 1].node
    };
    for toss in -1..32 {
        let (mut state, mut entry) = (before.clone(), [0; 8]);
        let tosses = [toss];
        let tosses = if toss < 0 { &[] } else { &tosses[..] };
        let mut machine = Machine::<true>::new(closed, tosses, 0);
        let stepped = machine.step(&mut state, task, Some(&mut entry));
        if stepped.is_ok() && next(&state) == next(open) {
            assert_eq!(machine.used, tosses.len());
            return (state, entry);
        }
    }
    panic!("no toss leads where the open step does");
}

/// What demand 3 asks of two states, but for variables.
fn assert_alike(closed: &Table, a: &State, b: &State) {
    assert_eq!(a.sems, b.sems);
    for (a, b) in a.tasks.iter().zip(&b.tasks) {
        assert_eq!((a.depth, a.lost), (b.depth, b.lost));
        for (a, b) in a.frames[..a.depth as usize].iter().zip(&b.frames) {
            assert_eq!((a.proc, a.node), (b.proc, b.node));
        }
    }
    for ((a, b), queue) in a.queues.iter().zip(&b.queues).zip(&closed.queues) {
        assert_eq!(a.len, b.len);
        assert!(queue.blank || a.iter().eq(b.iter()));
        assert!(!queue.blank || b.iter().all(|entry| entry == 0));
    }
}

#[test]
fn open_runs_have_closed_ones() {
    let mut steps = 0;
    for seed in 0..3_000 {
        let mut r = Random::new(seed);
        let size = r.pick(&[Size::Tiny, Size::Small, Size::Middle]);
        let open = tables::open(size, &mut r);
        let mut closed = Table::default();
        close_valid(&open, &mut closed).unwrap();
        let words = runs::live(&open, &mut r);
        let mut machine = Machine::<false>::new(&open, &words.values, words.most);
        let (mut a, mut b) = (State::default(), State::default());
        if machine.start(&mut a).is_err() {
            continue;
        }
        Machine::<true>::new(&closed, &[], 0).start(&mut b).unwrap();
        for &task in &words.schedule {
            let mut entry = [0; 8];
            if machine.step(&mut a, task, Some(&mut entry)).is_err() {
                break;
            }
            let (after, closed_entry) = closed_step(&closed, &b, task, &a);
            b = after;
            assert_eq!(entry[..3], closed_entry[..3]);
            assert!(closed_entry[3] == 0 || entry == closed_entry);
            assert_alike(&closed, &a, &b);
            steps += 1;
        }
    }
    assert!(steps > 10_000);
}

fn exploring(text: &str, depth: usize, bound: u64) -> String {
    let mut out = vec![0; 1 << 16];
    let len = explore_text(text.as_bytes(), depth, bound, &mut out);
    String::from_utf8_lossy(&out[..len]).into_owned()
}

#[test]
fn explorations_of_the_example() {
    let found = "found=standstill steps=3 tried=7
step=0 task=0 proc=0 node=0 flag=0 value=0 toss=none
step=1 task=0 proc=0 node=2 flag=0 value=0 toss=1
step=2 task=0 proc=0 node=5 flag=0 value=0 toss=none
task=0 frames=1 lost=no
frame=0 proc=0 node=7 vars=0,1,0
sem=0 count=1
";
    assert_eq!(exploring(CLOSED, 4, 7), found);
    assert_eq!(exploring(CLOSED, 4, 6), "refused=18 line=0\n");
    assert_eq!(exploring(CLOSED, 2, 3), "found=none tried=3\n");
    assert_eq!(exploring(CLOSED, 0, 0), "found=none tried=0\n");
    assert_eq!(exploring(CLOSED, 1, 0), "refused=18 line=0\n");
    assert_eq!(exploring(CLOSED, 25, 7), "refused=17 line=0\n");
    assert_eq!(exploring(OPEN, 25, 7), "refused=9 line=0\n");
}

/// A path that is found is a completed run that ends in the same state.
#[test]
fn paths_are_runs() {
    let mut longest = 0;
    for seed in 0..3_000 {
        let mut r = Random::new(seed);
        let size = r.pick(&[Size::Tiny, Size::Small, Size::Middle]);
        let table = match r.once_in(2) {
            true => tables::closed(size, &mut r),
            false => tables::closing(size, &mut r),
        };
        let depth = r.within(0, DEPTH);
        let Ok(answer) = explore_valid(&table, depth, 1_000) else {
            continue;
        };
        if answer.found == Found::None {
            continue;
        }
        let schedule: Vec<u8> = answer.path.iter().map(|step| step.entry[0]).collect();
        let tosses: Vec<i32> = answer
            .path
            .iter()
            .filter_map(|step| step.toss)
            .map(i32::from)
            .collect();
        let entries: Vec<u8> = answer.path.iter().flat_map(|step| step.entry).collect();
        let mut log = vec![0; entries.len()];
        let mut state = State::default();
        let ran = run_valid(&table, &schedule, &tosses, 0, &mut log, &mut state);
        let (steps, used) = (schedule.len(), tosses.len());
        assert_eq!(
            ran,
            Answer {
                steps,
                used,
                stop: 0
            }
        );
        assert!(log == entries && state == answer.state, "seed {seed}");
        longest = longest.max(steps);
    }
    assert_eq!(longest, DEPTH);
}
