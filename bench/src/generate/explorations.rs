//! Explorations at random: a depth, and a bound that is about as large as the search needs.

use crate::plain::explore::{explore_valid, DEPTH};
use crate::plain::fault::Fault;
use crate::plain::table::Table;
use crate::random::Random;

/// The two numbers of an exploration.
#[derive(Clone, Copy, Debug)]
pub struct Limits {
    pub depth: usize,
    pub bound: u64,
}

/// Limits with no table in mind.
pub fn any(r: &mut Random) -> Limits {
    Limits {
        depth: depth(r),
        bound: r.below(100) as u64,
    }
}

/// Limits of a search that mostly comes to an answer, or just fails to: the depth is lowered until few steps suffice.
pub fn near(table: &Table, r: &mut Random) -> Limits {
    let mut depth = depth(r);
    let most = r.pick(&[1, 10, 100, 1_000, 5_000]);
    let lowered = !r.once_in(4);
    loop {
        let bound = match explore_valid(table, depth, most) {
            Ok(exploration) => around(exploration.tried, r),
            Err(refusal) if lowered && refusal.is(Fault::Bound) => {
                depth -= depth.div_ceil(8);
                continue;
            }
            Err(_) => most,
        };
        return Limits { depth, bound };
    }
}

fn depth(r: &mut Random) -> usize {
    match r.below(40) {
        0 => 0,
        1 => r.pick(&[DEPTH + 2, 255, 256, 1 << 32, usize::MAX]),
        2 => DEPTH + 1,
        3..=5 => DEPTH,
        6..=20 => r.within(1, 8),
        _ => r.within(0, DEPTH),
    }
}

/// The number of steps that is needed, one off, or far off.
fn around(tried: u64, r: &mut Random) -> u64 {
    match r.below(8) {
        0 | 1 => tried.saturating_sub(1),
        2 => r.below(tried as usize + 1) as u64,
        3 => tried + 1,
        4 => r.pick(&[1 << 32, u64::MAX - 1, u64::MAX]),
        _ => tried,
    }
}
