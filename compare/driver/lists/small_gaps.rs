//! The part of the search list around the least gap of a new job.
//!
//! Of kept jobs it holds every position of three levels and the last ones of 12 and 169, with gaps from
//! 0 to the f32 before 40; such records with one field out of its range; starts and searches over them
//! that are refused and that are accepted; and one whose third step must find a pair that is too near
//! for every new job, else the driver stops. Of new jobs it holds gaps at 40 and at 84, each with the
//! f32 on both sides; tables of 82 levels, in which no pair qualifies, and of 83, in which one does, and
//! only at 40; the half-unit edges from 40 to 49 over 100 levels, where 48.5 is the last at which a pair
//! qualifies, and the last ones over 84, 85 and 90, each with the f32 next to it; tables in which many
//! pairs reach the best chroma, whose rows stand at the first levels and again from level 82 on; 100
//! levels of the panel; and random tables of 83 to 100 levels.

use crate::lists::rooms::{edges, laps};
use crate::lists::search::{
    self, damaged, flat, random_calls, random_rows, rows_of, tied, MIDST, PANEL, SMALL, SMALL_GAPS,
};
use crate::models::job::{Job, LEAST_GAP, ROOM};
use crate::models::search::Searches;
use crate::models::table::Tables;
use crate::random::Random;
use crate::standins::{DIRECTIONS, LEVELS};
use crate::words::float_step;
use std::io;

/// How many levels on from one the first lies that is far enough for a new job.
const APART: usize = 82;
/// How many levels the tables of new jobs have at most, but for the panel's own.
const MOST: usize = 100;
/// Hue counts of new jobs.
const COUNTS: [u32; 5] = [1, 2, 3, 5, 16];
/// A work buffer that is one too short.
const SHORT: usize = ROOM - 1;
/// A record in the midst of a kept job over three levels, at a pair that is better.
pub const KEPT: Job = Job {
    gap: 0.0,
    levels: 3,
    best: Some((40.0, 0, 2)),
    ..MIDST
};

/// Writes the cases of the fixed list.
pub fn fixed(list: &mut Searches) -> io::Result<()> {
    let mut random = Random(23);
    least_gap(list)?;
    third_step(list)?;
    kept_positions(list)?;
    kept_damaged(list)?;
    begun_over(list)?;
    one_pair(list)?;
    half_units(list)?;
    first_wins(list)?;
    panel_parts(list)?;
    for (i, levels) in [83, 84, 87, 91, 95, MOST].into_iter().enumerate() {
        for kind in [i, (i + 3) % PANEL] {
            random_table(list, &mut random, kind, levels)?;
            random_calls(list, &mut random, random_gap, 5)?;
        }
    }
    Ok(())
}

/// A number with the f32 on both sides.
pub fn near(v: f32) -> [f32; 3] {
    [-1, 0, 1].map(|by| float_step(v, by))
}

/// Writes starts and searches over three levels with gaps at and beyond the ends of what a new job
/// may have, each lent a kept job, and a step after each.
fn least_gap(list: &mut Searches) -> io::Result<()> {
    list.set(&flat(3, 50.0))?;
    let others = [0.0, -0.0, f32::NAN, 39.5];
    for gap in [&near(LEAST_GAP)[..], &near(84.0), &others].concat() {
        list.lend(KEPT)?;
        list.start_alone(1, gap)?;
        list.step_in(&[ROOM])?;
        list.lend(KEPT)?;
        list.search_alone(1, gap, &laps(ROOM))?;
        list.step_in(&[ROOM])?;
    }
    Ok(())
}

/// Writes a kept job with a gap of 0 over three levels of 50: its third step must find 50 at levels
/// 0 and 2, which are too near for any gap of a new job.
fn third_step(list: &mut Searches) -> io::Result<()> {
    list.set(&flat(3, 50.0))?;
    list.start(2, 0.0)?;
    for _ in 0..3 {
        list.step()?;
    }
    let best = list.job().best;
    assert!(best == Some((50.0, 0, 2)), "the third step finds another");
    list.steps(6)?;
    list.step_in(&[ROOM, SHORT])
}

/// Sets a table of so many rows of one value.
pub fn even(list: &mut Tables, levels: usize, v: f32) -> io::Result<()> {
    list.resize(levels * DIRECTIONS)?;
    list.same(0, levels * DIRECTIONS, v)
}

/// Writes steps of kept jobs at every position of three levels and at the last ones of more, in a
/// work buffer that is too short and in one that is not; a finished one has number 14 in both.
fn kept_positions(list: &mut Searches) -> io::Result<()> {
    for (levels, positions) in [(3, 10), (12, 3), (LEVELS as u32, 2)] {
        even(list, levels as usize, 50.0)?;
        for gap in SMALL_GAPS {
            for left in 0..positions {
                let mut job = Job {
                    gap,
                    levels,
                    position: levels * levels - left,
                    ..KEPT
                };
                if left % 2 == 1 {
                    (job.best, job.hues, job.tightest) = (None, [0; 16], 0);
                }
                list.lend(job)?;
                list.step_in(&[SHORT, ROOM])?;
            }
        }
    }
    Ok(())
}

/// Writes a step for each record of a kept job with one field out of its range.
fn kept_damaged(list: &mut Searches) -> io::Result<()> {
    list.set(&flat(4, 50.0))?;
    for gap in [0.0, 1e-45, 39.5, SMALL] {
        for (i, job) in damaged(Job { gap, ..MIDST }).into_iter().enumerate() {
            list.lend(job)?;
            list.step_in(&[[SHORT, ROOM][i % 2]])?;
        }
    }
    Ok(())
}

/// Writes starts and searches over kept jobs and over new ones: what is refused for its gap leaves
/// the job to go on, and what is accepted begins a new one.
fn begun_over(list: &mut Searches) -> io::Result<()> {
    list.set(&flat(4, 50.0))?;
    for (i, gap) in SMALL_GAPS.into_iter().enumerate() {
        let small = |by: usize| SMALL_GAPS[(i + by) % SMALL_GAPS.len()];
        let k = COUNTS[i];
        list.start(k, gap)?;
        list.steps_in(2, &[ROOM])?;
        list.start_alone(3, small(1))?;
        list.step()?;
        list.search_alone(k, small(2), &[ROOM, SHORT])?;
        list.step_in(&[ROOM])?;
        list.start(2, LEAST_GAP + i as f32)?;
        list.step_in(&[ROOM])?;
        list.start_alone(k, small(3))?;
        list.step()?;
        list.search_alone(k, small(4), &[ROOM])?;
        list.step_in(&[ROOM])?;
    }
    for position in [2, 15, 16] {
        list.lend(Job { position, ..MIDST })?;
        list.start_alone(3, 39.5)?;
        list.step_in(&[ROOM])?;
        list.search_alone(3, LEAST_GAP, &[SHORT, ROOM])?;
    }
    Ok(())
}

/// Writes calls over 82 levels, which have no pair for a new job, and over 83, which have one at a
/// gap of 40 and none at the next f32.
fn one_pair(list: &mut Searches) -> io::Result<()> {
    even(list, APART, 50.0)?;
    for k in [1, 16] {
        list.search(k, LEAST_GAP)?;
        assert!(list.job().best.is_none(), "a pair too near");
    }
    even(list, APART + 1, 50.0)?;
    let length = list.table().len();
    for (i, k) in COUNTS.into_iter().enumerate() {
        let [_, at, above] = near(LEAST_GAP);
        list.search_alone(k, SMALL, &[ROOM])?;
        list.search(k, at)?;
        let best = list.job().best;
        assert!(best == Some((50.0, 0, 82)), "not the one pair");
        list.search(k, above)?;
        // An entry and the length are wrong by turns, and both at once.
        list.more(length - 2, &[[50.0, -0.0][i % 2]])?;
        list.resize(length - i / 2 % 2)?;
        list.start(k, at)?;
        list.search(k, at)?;
        list.resize(length)?;
        list.more(length - 2, &[50.0])?;
    }
    list.search_in(2, LEAST_GAP, &edges(ROOM))?;
    list.search_in(16, SMALL, &[ROOM])?;
    list.start(2, LEAST_GAP)?;
    list.steps(APART)?;
    list.step()?;
    list.steps_in(list.job().pairs() as usize - APART, &[ROOM])?;
    list.run(3, float_step(LEAST_GAP, 1))
}

/// A table of 100 levels of which each has a value of its own where a new job can reach it, rising
/// or falling by level.
pub fn sloped(by: f32) -> Vec<f32> {
    let reached = |level: usize| level + APART < MOST || level >= APART;
    let value = |level: usize| match reached(level) {
        true => 50.0 + by * level as f32,
        false => 20.0,
    };
    rows_of(&(0..MOST).map(value).collect::<Vec<_>>())
}

/// Writes searches at the half-unit edges from 40 up and the f32 next to each, to where the last
/// pair alone is far enough apart and beyond; and starts with steps between the edges.
fn half_units(list: &mut Searches) -> io::Result<()> {
    even(list, MOST, 20.0)?;
    for by in [0.125, -0.125] {
        list.set(&sloped(by))?;
        for half in 0..=MOST - APART {
            let edge = LEAST_GAP + 0.5 * half as f32;
            for gap in near(edge).into_iter().filter(|gap| *gap >= LEAST_GAP) {
                list.search_in(COUNTS[half % 5], gap, &[[ROOM, 3 * ROOM][half % 2]])?;
            }
        }
        for levels in [84, 85, 90] {
            list.resize(levels * DIRECTIONS)?;
            let last = LEAST_GAP + 0.5 * (levels - APART - 1) as f32;
            for gap in near(last).into_iter().chain(near(last + 0.5)) {
                list.search_in(2, gap, &[ROOM])?;
            }
        }
        list.resize(86 * DIRECTIONS)?;
        list.search(16, 41.0)?;
        list.run(5, 40.75)?;
    }
    Ok(())
}

/// Writes searches over tables in which many pairs reach the best chroma: rows that do so among few
/// levels, once from the first level on and once from the first that is far enough from it.
fn first_wins(list: &mut Searches) -> io::Result<()> {
    even(list, APART + 9, 20.0)?;
    for (i, rows) in tied().into_iter().enumerate() {
        let between = vec![20.0; APART * DIRECTIONS - rows.len()];
        list.set(&[&rows[..], &between, &rows].concat())?;
        for (k, gap) in [(2, LEAST_GAP), (5, 40.5), (16, 41.0)] {
            list.search(k, gap)?;
        }
        if i % 5 == 3 {
            list.run(4, LEAST_GAP)?;
        }
    }
    Ok(())
}

/// Writes searches over a hundred levels of the panel.
fn panel_parts(list: &mut Searches) -> io::Result<()> {
    for (first, gap) in [(30, LEAST_GAP), (50, 43.5)] {
        list.panel(first, MOST)?;
        for k in COUNTS {
            list.search(k, gap)?;
        }
    }
    Ok(())
}

/// Sets a random table for new jobs, of this kind and so many levels from 83 to 100. The rows that
/// no new job reaches are all of one value.
pub fn random_table(
    list: &mut Tables,
    random: &mut Random,
    kind: usize,
    levels: usize,
) -> io::Result<()> {
    if kind == PANEL {
        return search::random_table(list, random, kind, levels);
    }
    let between = levels - APART..APART;
    let v = random.pick(&[0.0, 20.0, 50.0, 200.0]);
    let mut table = random_rows(random, kind, levels);
    table[between.clone()].fill(vec![v; DIRECTIONS]);
    list.same(between.start * DIRECTIONS, between.len() * DIRECTIONS, v)?;
    list.set(&table.concat())
}

/// A random gap that a new job may have: 40, a half-unit edge that a table of so many levels can
/// have or the f32 next to it, or any.
fn taken_gap(random: &mut Random, levels: usize) -> f32 {
    let edge = LEAST_GAP + 0.5 * random.below(levels.max(APART + 1) - APART + 1) as f32;
    match random.below(8) {
        0 | 1 => LEAST_GAP,
        2..5 => edge,
        5 => float_step(edge, 1),
        6 if edge > LEAST_GAP => float_step(edge, -1),
        _ => random.between(LEAST_GAP, 50.0),
    }
}

/// A random gap that a new job may have, or now and then one that is too small for it.
pub fn random_gap(random: &mut Random, levels: usize) -> f32 {
    match random.below(12) {
        0 => random.pick(&[SMALL, 39.5, 39.0, 30.0]),
        _ => taken_gap(random, levels),
    }
}

/// Writes a kept job in its midst, a start over it that is refused for its gap, and steps of it;
/// half the time then a start over it that is accepted, one over the new job that is refused for
/// its gap, and steps of that.
pub fn over_kept(list: &mut Searches, random: &mut Random) -> io::Result<()> {
    let levels = list.table().len() / DIRECTIONS;
    let k = random.below(16) as u32 + 1;
    list.start(k, random.pick(&SMALL_GAPS))?;
    list.steps(random.below(2 * levels))?;
    list.start_alone(17 - k, random.pick(&SMALL_GAPS))?;
    list.step()?;
    list.steps(random.below(9))?;
    if random.below(2) == 0 {
        let gap = taken_gap(random, levels);
        list.start(k, gap)?;
        list.steps(random.below(2 * levels))?;
        list.start_alone(17 - k, random.pick(&SMALL_GAPS))?;
        list.step()?;
    }
    Ok(())
}
