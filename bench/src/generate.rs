//! Generated cases: a seed makes a case again.

pub mod damage;
pub mod explorations;
pub mod extremes;
pub mod runs;
pub mod tables;

use crate::plain::read::read;
use crate::plain::table::Table;
use crate::plain::write::write_lines;
use crate::random::Random;
use crate::vectors::Words;
use explorations::Limits;

/// What a case's text is.
#[derive(Clone, Copy, Debug, PartialEq, Eq)]
pub enum Kind {
    /// A valid open table.
    Open,
    /// The closing of one.
    Closing,
    /// A valid closed table made at random.
    Closed,
    /// A small closed table whose tasks send and receive much, for explorations.
    Busy,
    /// A valid table of full size, open or closed.
    Full,
    /// Single bytes of a valid text changed, removed or added.
    Bytes,
    /// A valid text cut, and wrong before the cut sometimes.
    Cut,
    /// Values replaced or changed, huge numbers and disordered lists among them.
    Values,
    /// Lines swapped, doubled, removed or moved, those at a procedure's end more often.
    Lines,
    /// Argument counts, targets and `-` changed, so that four in ten break the rules 6 and 7.
    Rules,
    /// Bytes after the end, up to over 65,536 bytes.
    Tail,
    /// Words of the language in no order.
    Noise,
}

/// The kinds, each with its share of the cases.
pub const KINDS: [(Kind, usize, &str); 12] = [
    (Kind::Open, 24, "open"),
    (Kind::Closing, 12, "closing"),
    (Kind::Closed, 24, "closed"),
    (Kind::Busy, 24, "busy"),
    (Kind::Full, 2, "full"),
    (Kind::Bytes, 30, "bytes"),
    (Kind::Cut, 24, "cut"),
    (Kind::Values, 40, "values"),
    (Kind::Lines, 18, "lines"),
    (Kind::Rules, 24, "rules"),
    (Kind::Tail, 8, "tail"),
    (Kind::Noise, 4, "noise"),
];

/// A text, a run and an exploration of it, and the length of the buffer to write it into.
pub struct Case {
    pub kind: Kind,
    pub text: Vec<u8>,
    pub words: Words,
    pub limits: Limits,
    pub room: usize,
}

/// The case of a seed.
pub fn case(seed: u64) -> Case {
    let mut r = Random::new(seed);
    let kind = pick_kind(&mut r);
    let text = text_of(kind, &mut r);
    with_run(kind, text, &mut r)
}

/// A case of a text: a run and an exploration that fit it, if it is a table's, and a buffer.
pub fn with_run(kind: Kind, text: Vec<u8>, r: &mut Random) -> Case {
    let mut table = Table::default();
    let accepted = read(&text, &mut table).is_ok();
    let words = match accepted {
        true => runs::live(&table, r),
        false => runs::any(r),
    };
    let room = match r.below(8) {
        0 => text.len().saturating_sub(1),
        1 => r.below(text.len() + 1),
        2 => text.len() + r.below(100),
        3 => 1 << 16,
        _ => text.len(),
    };
    let limits = match accepted {
        true => explorations::near(&table, r),
        false => explorations::any(r),
    };
    Case {
        kind,
        text,
        words,
        limits,
        room,
    }
}

fn pick_kind(r: &mut Random) -> Kind {
    let all: usize = KINDS.iter().map(|(_, share, _)| share).sum();
    let mut at = r.below(all);
    for (kind, share, _) in KINDS {
        if at < share {
            return kind;
        }
        at -= share;
    }
    Kind::Open
}

fn text_of(kind: Kind, r: &mut Random) -> Vec<u8> {
    match kind {
        Kind::Open => {
            let size = tables::Size::random(r);
            lines_of(&tables::open(size, r))
        }
        Kind::Closing => {
            let size = tables::Size::random(r);
            lines_of(&tables::closing(size, r))
        }
        Kind::Closed => {
            let size = tables::Size::random(r);
            lines_of(&tables::closed(size, r))
        }
        Kind::Busy => lines_of(&tables::busy(r)),
        Kind::Full => lines_of(&tables::any(tables::Size::Full, r)),
        Kind::Rules => {
            let size = tables::Size::random(r);
            let mut table = tables::any(size, r);
            damage::break_rules(&mut table, r);
            lines_of(&table)
        }
        Kind::Noise => damage::noise(r),
        Kind::Bytes | Kind::Cut | Kind::Values | Kind::Lines | Kind::Tail => {
            let size = tables::Size::random(r);
            let mut text = lines_of(&tables::any(size, r));
            match kind {
                Kind::Bytes => damage::bytes(&mut text, r),
                Kind::Cut => damage::cut(&mut text, r),
                Kind::Values => damage::values(&mut text, r),
                Kind::Lines => damage::lines(&mut text, r),
                _ => damage::tail(&mut text, r),
            }
            text
        }
    }
}

/// The lines that a table stands for.
pub fn lines_of(table: &Table) -> Vec<u8> {
    let mut text = vec![0; 1 << 16];
    let len = write_lines(table, &mut text);
    text.truncate(len);
    text
}
