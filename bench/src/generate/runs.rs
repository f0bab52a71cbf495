//! Runs at random: words that fit a table, and words that do not.

use super::tables::value;
use crate::plain::run::{Machine, State, ENTRY};
use crate::plain::table::Table;
use crate::random::Random;
use crate::vectors::Words;

/// Words with no table in mind.
pub fn any(r: &mut Random) -> Words {
    let len = r.below(6);
    Words {
        schedule: (0..len).map(|_| r.below(5) as u8).collect(),
        values: (0..r.below(6)).map(|_| value(r)).collect(),
        most: r.below(4),
        log: r.below(64),
    }
}

/// Words of a run that mostly goes on.
pub fn live(table: &Table, r: &mut Random) -> Words {
    let wide = r.once_in(8);
    let values: Vec<i32> = match table.closed {
        true if wide => (0..r.below(60)).map(|_| r.below(32) as i32).collect(),
        true => (0..r.below(60)).map(|_| toss(r)).collect(),
        false => (0..r.below(60)).map(|_| value(r)).collect(),
    };
    let most = match table.closed {
        true => r.pick(&[0, 1, 31, usize::MAX]),
        false => r.pick(&[0, 1, 2, 3, 5, 8, 31, 100, 256, 1000]),
    };
    let wanted = match r.below(8) {
        0 => 0,
        1 => r.below(4),
        _ => r.below(80),
    };
    let schedule = match table.closed {
        true => walk(Machine::<true>::new(table, &values, most), table, wanted, r),
        false => walk(
            Machine::<false>::new(table, &values, most),
            table,
            wanted,
            r,
        ),
    };
    let log = match r.below(6) {
        0 => r.below(schedule.len() * ENTRY + 1),
        1 => schedule.len() * ENTRY + r.below(20),
        2 => (schedule.len() * ENTRY).saturating_sub(r.below(9)),
        _ => schedule.len() * ENTRY,
    };
    Words {
        schedule,
        values,
        most,
        log,
    }
}

/// A toss, rarely one that no arc takes.
fn toss(r: &mut Random) -> i32 {
    match r.below(40) {
        0 => value(r),
        1..=20 => 0,
        21..=34 => 1,
        _ => r.below(5) as i32,
    }
}

/// A schedule that avoids most stops by stepping along.
fn walk<const CLOSED: bool>(
    mut machine: Machine<CLOSED>,
    table: &Table,
    wanted: usize,
    r: &mut Random,
) -> Vec<u8> {
    let mut state = State::default();
    let mut schedule = Vec::new();
    let mut going = machine.start(&mut state).is_ok();
    let mut entry = [0; ENTRY];
    while schedule.len() < wanted {
        let mut tries = if r.once_in(40) { 0 } else { 6 };
        loop {
            let task = r.below(table.task_count as usize) as u8;
            let stopped = going && machine.step(&mut state, task, Some(&mut entry)).is_err();
            if stopped && tries > 0 {
                tries -= 1;
                continue;
            }
            going &= !stopped;
            schedule.push(task);
            break;
        }
        if !going && r.once_in(3) {
            break;
        }
    }
    if let Some(place) = place_of_none(&mut schedule, r) {
        *place = r.pick(&[table.task_count, 4, 7, 100, 255]);
    }
    schedule
}

/// Rarely, a place of the schedule for a task that is not there.
fn place_of_none<'a>(schedule: &'a mut [u8], r: &mut Random) -> Option<&'a mut u8> {
    let at = r.below(schedule.len() + 1);
    schedule.get_mut(at).filter(|_| r.once_in(12))
}
