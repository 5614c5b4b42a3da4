//! The ceiling list, for `ceiling_cases`: what a job has so far and its ceiling, worked out from the
//! text of Req 08 with both rows read anew for every pair still to come.
//!
//! The published Rust has no ceiling. From each record that is accepted the driver goes on to the end,
//! step by step over the published `best_for_levels`, and stops where the finished job exceeds the
//! larger of best and ceiling; where it has a chroma though none of them reaches 35; where a job that has
//! just begun does not end in what the published `search` gives; where a ceiling rises on the way of a
//! job; and where every row of a table is of one value and the job ends more than one f32 below the
//! larger of both.
//!
//! The fixed list holds calls that follow from the rule without working out a table, which must come
//! out as they stand here, else the driver stops: at every position of three levels and of four, over
//! zeros and with ceilings below the best and below 35; with the largest entries of both rows at other
//! hues, in each place of the rows that matters; of new jobs over 83 and 169 levels, of which one pair is
//! far enough apart, and none at the next f32; of finished jobs; and refused ones. It holds records with
//! each field at the ends of its range and beyond, and with all beyond; every set of the three refusals,
//! of which the first in the order 15, 6, 7 must be given, else it stops; tables of 0 to 170 x 720
//! entries, each for jobs over 1, 3, 168 and 169 levels; entries that are refused and at the ends, in
//! rows that a pair still to come reads and in rows that none does. It holds jobs at the first and the
//! last ten positions of their way, at their end, where the first and the last pair lies that is far
//! enough apart and one position on, and at some random positions, each with some records beside it that
//! are made up: over tables in which many pairs reach the best chroma, over rows that rise and that fall
//! with the level, rows of one value, the panel's rows, and 169 levels with gaps from 82 to 84. At fewer
//! positions it has the f32 next to these gaps, and the half-unit edges from 40 on over 100 levels; as a
//! random list has them, random tables of 1 to 12 levels and of 83 to 100; and at twelve positions the
//! panel's own table of 169 levels for every hue count at gap 40, and for some at other gaps; and for two
//! hues at gap 40 the positions of the lines of progress that `lamp` writes.
//!
//! A random list has 24 calls on the same table, eight for one job. The tables and the gaps are those of
//! the random lists of searches: half of the tables have 1 to 12 levels in turn and gaps of kept jobs,
//! the other half 83 to 100 levels and most gaps from 40 to 50. Half of the calls are lent records on the
//! way of the job, the others records that are made up, about a third of them with none so far and a
//! third with a chroma near an entry; about one call in twelve has a fault or more. Positions lie at
//! the ends, where the first and the last pair lies that is far enough apart or one on, before that last
//! one, or anywhere.

use crate::files::Files;
use crate::lists::orientation::{mend, spoil};
use crate::lists::page::{found_over, with_chroma, with_none};
use crate::lists::placement::{EDGES, REFUSED};
use crate::lists::search::{
    at_ends, damaged, far_table, flat, full, random_gap, random_table, rows_of, table_in_turn,
    tied, GapFor, CALLS, CHEAP, FAR, LENGTHS, MIDST, MIDST_NONE, RISING, WORST,
};
use crate::lists::small_gaps::{self, even, near, sloped, KEPT};
use crate::models::ceiling::Ceilings;
use crate::models::job::{began, Job, BAD_ENTRY, BAD_TABLE, BROKEN, FLOOR, LEAST_GAP};
use crate::models::table::STORED;
use crate::random::Random;
use crate::standins::{DIRECTIONS, LEVELS};
use crate::words::{float_step, word};
use std::io;

/// The numbers of the faults that a call can have, in the order in which they are found: the record,
/// the table's length, an entry.
const FAULTS: [u32; 3] = [BROKEN, BAD_TABLE, BAD_ENTRY];
/// How many positions at each end of its way most jobs are asked at.
const ENDS: u32 = 10;
/// How many calls of a random list are for one job.
const A_JOB: usize = 8;
/// The words of an answer that say none so far, and a best of 48 at the first and the last of four
/// levels; and those that say that no pair is left.
const NONE: [u32; 2] = [0, 0];
const SOME: [u32; 5] = [0, 1, 48f32.to_bits(), 0, 3];
const NO_PAIR: [u32; 3] = [0, 0, 0];
/// Positions of the panel's own table: at the ends, where the first and the last pair lies that is far
/// enough apart for a gap of 40, one on from there, and between.
const PANEL_POSITIONS: [u32; 12] = [
    0, 82, 83, 1_000, 5_000, 8_000, 11_000, 14_000, 14_702, 14_703, 28_560, 28_561,
];
/// How many positions lie between two of `lamp`'s lines of progress.
const LAMP_BETWEEN: u32 = 2_873;

/// Writes the fixed list.
pub fn fixed(files: &mut Files) -> io::Result<()> {
    let mut list = Ceilings::begin(files)?;
    let mut random = Random(29);
    by_hand(&mut list)?;
    by_hand_falling(&mut list)?;
    by_hand_new(&mut list)?;
    by_hand_refused(&mut list)?;
    peaks(&mut list)?;
    broken(&mut list)?;
    not_broken(&mut list)?;
    refusals(&mut list, &mut random)?;
    lengths(&mut list)?;
    entries(&mut list)?;
    few_levels(&mut list, &mut random)?;
    for levels in 1..=12 {
        for kind in 0..CHEAP {
            random_table(&mut list.tables, &mut random, kind, levels)?;
            random_calls(&mut list, &mut random, random_gap, A_JOB)?;
        }
    }
    new_jobs(&mut list, &mut random)?;
    half_units(&mut list)?;
    farthest(&mut list, &mut random)?;
    whole_panel(&mut list)?;
    list.end()?;
    let own = ["job 0 0 0 0", "best 0 0 0"];
    list.tables.damaged(&own, ("ceiling", &[0]))
}

/// Writes a random list of this many calls. By turns a table has 1 to 12 levels, for kept jobs, or 83
/// to 100, for new ones.
pub fn many(files: &mut Files, seed: u64, count: usize) -> io::Result<()> {
    let mut list = Ceilings::begin(files)?;
    let mut random = Random(seed);
    let mut left = count;
    while left > 0 {
        let turn = (count - left) / CALLS;
        let some = left.min(CALLS);
        let gap_for = table_in_turn(&mut list.tables, &mut random, turn)?;
        random_calls(&mut list, &mut random, gap_for, some)?;
        left -= some;
    }
    list.end()
}

/// The same record at this position.
fn at(job: Job, position: u32) -> Job {
    Job { position, ..job }
}

/// The job over the table that has just begun, new or kept.
fn begun(list: &Ceilings, k: u32, gap: f32) -> Job {
    began(k, gap, list.tables.table()).expect("a start")
}

/// The words of an answer that say none so far and this ceiling.
fn alone(ceiling: f32) -> [u32; 4] {
    [0, 0, 1, word(ceiling)]
}

/// Writes calls over three levels, of which the first and the last alone are far enough apart, at
/// position 2: over zeros; with the largest entries of the two rows at other hues, and larger ones in
/// the row between; and over rows below 35.
fn by_hand(list: &mut Ceilings) -> io::Result<()> {
    let job = Job {
        k: 1,
        ..with_none(KEPT)
    };
    list.tables.set(&flat(3, 0.0))?;
    for position in 0..=2 {
        list.must(at(job, position), &alone(0.0))?;
    }
    for position in 3..=9 {
        list.must(at(job, position), &NO_PAIR)?;
    }
    list.tables.set(&rows_of(&[10.0, 200.0, 10.0]))?;
    for [dark, light] in [[50.0, 60.0], [60.0, 50.0]] {
        list.tables.more(0, &[dark])?;
        list.tables.more(2 * DIRECTIONS + 360, &[light])?;
        list.must(job, &alone(50.0))?;
    }
    for v in [1e-45, 20.0, FLOOR.next_down(), FLOOR, 200.0] {
        list.tables.set(&flat(3, v))?;
        list.must(job, &alone(v))?;
        let best = [0, 1, word(40.0), 0, 2, 1, word(v)];
        list.must(KEPT, &best)?;
    }
    Ok(())
}

/// Writes calls at every position of four levels, of which three pairs are far enough apart, those at
/// positions 2, 3 and 7: the lesser of both is 50, then 45, then 40. The best is none or 48.
fn by_hand_falling(list: &mut Ceilings) -> io::Result<()> {
    list.tables.set(&rows_of(&[60.0, 40.0, 50.0, 45.0]))?;
    let job = with_chroma(Job { gap: 0.0, ..MIDST }, 48.0);
    for position in 0..=16 {
        let said = match position {
            0..=2 => vec![1, word(50.0)],
            3 => vec![1, word(45.0)],
            4..=7 => vec![1, word(40.0)],
            _ => vec![0],
        };
        list.must(at(with_none(job), position), &[&NONE[..], &said].concat())?;
        list.must(at(job, position), &[&SOME[..], &said].concat())?;
    }
    Ok(())
}

/// Writes calls of new jobs over 83 levels with a gap of 40 and over 169 with a gap of 83, at which the
/// first and the last level alone are far enough apart, and with the next f32.
fn by_hand_new(list: &mut Ceilings) -> io::Result<()> {
    for (levels, gap) in [(83, LEAST_GAP), (LEVELS, 83.0)] {
        even(&mut list.tables, levels, 50.0)?;
        let last = levels as u32 - 1;
        list.tables
            .same(last as usize * DIRECTIONS, DIRECTIONS, 40.0)?;
        let job = begun(list, 2, gap);
        for position in [0, last] {
            list.must(at(job, position), &alone(40.0))?;
        }
        list.must(at(job, last + 1), &NO_PAIR)?;
        list.must(begun(list, 2, float_step(gap, 1)), &NO_PAIR)?;
    }
    Ok(())
}

/// Writes calls of a finished job and of others that are refused, where the fault that is looked for
/// first is given, though no pair reads the row that has a refused entry.
fn by_hand_refused(list: &mut Ceilings) -> io::Result<()> {
    list.tables.set(&flat(3, 50.0))?;
    let (job, finished) = (with_none(KEPT), at(KEPT, 9));
    list.must(finished, &[0, 1, word(40.0), 0, 2, 0])?;
    list.must(at(job, 9), &NO_PAIR)?;
    let all = [job, at(job, 3), at(job, 9), KEPT, finished];
    list.tables.more(DIRECTIONS + 5, &[f32::NAN])?;
    for job in all {
        list.must(job, &[7])?;
    }
    for rows in [2, 4] {
        list.tables.resize(rows * DIRECTIONS)?;
        for job in all {
            list.must(job, &[6])?;
            list.must(at(job, 10), &[15])?;
        }
    }
    list.tables.resize(3 * DIRECTIONS)?;
    list.tables.more(DIRECTIONS + 5, &[50.0])
}

/// Writes calls with the largest entry of a row in the first place, the last and others, once in the
/// dark row and once in the light one, as the lesser of both by one f32; the row between is larger.
fn peaks(list: &mut Ceilings) -> io::Result<()> {
    let lesser = float_step(50.0, -1);
    list.tables.set(&rows_of(&[10.0, 200.0, 10.0]))?;
    for (i, place) in [0, 1, 359, 718, 719].into_iter().enumerate() {
        let other = [719, 0, 360][i % 3];
        for places in [[place, other], [other, place]] {
            let places = [places[0], 2 * DIRECTIONS + places[1]];
            for values in [[lesser, 50.0], [50.0, lesser]] {
                list.tables.more(places[0], &[values[0]])?;
                list.tables.more(places[1], &[values[1]])?;
                list.must(with_none(KEPT), &alone(lesser))?;
            }
            for place in places {
                list.tables.more(place, &[10.0])?;
            }
        }
    }
    Ok(())
}

/// Writes calls lent records with one field out of its range, or with all.
fn broken(list: &mut Ceilings) -> io::Result<()> {
    list.tables.set(&flat(4, 50.0))?;
    let tight = |job: Job, tightest: u32| Job { tightest, ..job };
    let mut records = [damaged(MIDST), damaged(full()), vec![WORST]].concat();
    records.extend([0, 721, u32::MAX].map(|gap| tight(MIDST, gap)));
    records.extend([1, 720, 721].map(|gap| tight(MIDST_NONE, gap)));
    // Some of these positions are taken where their high bits get lost.
    for position in [17, 18, 65_536, 65_538, 1 << 31, u32::MAX] {
        records.extend([MIDST, MIDST_NONE].map(|job| at(job, position)));
    }
    for job in records {
        list.must(job, &[BROKEN])?;
    }
    Ok(())
}

/// Writes calls lent records with one field at the ends of its range, and the one of `at_ends` that is broken.
fn not_broken(list: &mut Ceilings) -> io::Result<()> {
    for job in at_ends() {
        even(&mut list.tables, job.levels as usize, 50.0)?;
        list.ask(job)?;
    }
    list.tables.set(&flat(4, 50.0))?;
    for tightest in [1, 720] {
        list.ask(Job { tightest, ..MIDST })?;
    }
    Ok(())
}

/// Writes calls with every set of the three faults, of kinds that change from round to round, for a
/// job with a best and one with none so far, on their way and finished.
fn refusals(list: &mut Ceilings, random: &mut Random) -> io::Result<()> {
    list.tables.set(&flat(4, 50.0))?;
    for job in [MIDST, MIDST_NONE, at(MIDST, 16), at(MIDST_NONE, 16)] {
        for set in (0..1 << FAULTS.len()).cycle().take(24) {
            faulty(list, random, job, set)?;
        }
    }
    Ok(())
}

/// Writes a call with a set of faults, by their places in the order: the first must be given. The
/// table is afterwards as before.
fn faulty(list: &mut Ceilings, random: &mut Random, job: Job, set: usize) -> io::Result<()> {
    let has = |place: usize| set & 1 << place != 0;
    let good = if job.best.is_some() { job } else { MIDST };
    let job = if has(0) {
        random.pick(&damaged(good))
    } else {
        job
    };
    let before = spoil(&mut list.tables, random, [has(1), has(2)])?;
    if let Some(number) = FAULTS.get(set.trailing_zeros() as usize) {
        list.must(job, &[*number])?;
    } else {
        list.ask(job)?;
    }
    mend(&mut list.tables, before)
}

/// Writes calls over tables of many lengths, lent jobs over one level, over three, over the most and
/// over one fewer.
fn lengths(list: &mut Ceilings) -> io::Result<()> {
    list.tables.resize(STORED)?;
    list.tables.same(0, STORED, 50.0)?;
    for n in LENGTHS {
        list.tables.resize(n)?;
        for levels in [1, 3, LEVELS - 1, LEVELS] {
            let job = Job {
                gap: 0.0,
                levels: levels as u32,
                position: 0,
                ..MIDST_NONE
            };
            if n == levels * DIRECTIONS {
                list.ask(job)?;
            } else {
                list.must(job, &[BAD_TABLE])?;
            }
        }
    }
    Ok(())
}

/// Writes calls over four levels, of which the first and the last alone are far enough apart, with an
/// entry that is refused, or taken at the ends, in each row: before that pair, at it, after it, and at
/// the end.
fn entries(list: &mut Ceilings) -> io::Result<()> {
    list.tables.set(&flat(4, 50.0))?;
    for (i, v) in REFUSED.into_iter().chain(EDGES).enumerate() {
        for row in 0..4 {
            let place = row * DIRECTIONS + [0, 719, 360][(i + row) % 3];
            list.tables.more(place, &[v])?;
            let job = [MIDST, MIDST_NONE][(i + row) / 4 % 2];
            let job = at(job, [0, 3, 4, 16][(i + row) % 4]);
            if i < REFUSED.len() {
                list.must(job, &[BAD_ENTRY])?;
            } else {
                list.ask(job)?;
            }
            list.tables.more(place, &[50.0])?;
        }
    }
    Ok(())
}

/// The positions of the first and of the last pair of a job that is far enough apart, and one on from
/// each; none where there is no such pair.
fn turns(begun: Job) -> Vec<u32> {
    let far = |position: &u32| at(begun, *position).qualifies();
    let all: Vec<u32> = (0..begun.pairs() as u32).filter(far).collect();
    let ends = all.first().into_iter().chain(all.last());
    ends.flat_map(|position| [*position, position + 1])
        .collect()
}

/// Positions of a job: the first and the last ten, the end, those of `turns`, and some random ones.
fn positions(random: &mut Random, begun: Job) -> Vec<u32> {
    let pairs = begun.pairs() as u32;
    let first = 0..ENDS.min(pairs);
    let last = pairs.saturating_sub(ENDS)..=pairs;
    let mut all: Vec<u32> = first.chain(last).chain(turns(begun)).collect();
    all.extend((0..6).map(|_| random_position(random, begun)));
    all.sort_unstable();
    all.dedup();
    all
}

/// A random record of a job at this position: with none so far, with a chroma near an entry of the
/// table, or with any.
fn made_up(list: &Ceilings, random: &mut Random, begun: Job, position: u32) -> Job {
    let found = found_over(random, begun.k, begun.levels);
    let gap = begun.gap;
    let job = Job {
        gap,
        position,
        ..found
    };
    let within = |v: f32| v.clamp(FLOOR, 200.0);
    let entry = within(random.pick(list.tables.table()));
    match random.below(3) {
        0 => with_none(job),
        1 => with_chroma(job, within(random.near(entry))),
        _ => job,
    }
}

/// Writes calls for a job over the table at many positions on its way, and a few lent records that are
/// made up.
fn on_its_way(list: &mut Ceilings, random: &mut Random, k: u32, gap: f32) -> io::Result<()> {
    let begun = begun(list, k, gap);
    list.along(begun, positions(random, begun))?;
    for _ in 0..4 {
        let position = random_position(random, begun);
        let job = made_up(list, random, begun, position);
        list.ask(job)?;
    }
    Ok(())
}

/// Writes calls for jobs over few levels: over tables in which many pairs reach the best chroma, over
/// rows that rise and that fall with the level, over rows of one value, and over the panel's rows.
fn few_levels(list: &mut Ceilings, random: &mut Random) -> io::Result<()> {
    let mut falling = RISING;
    falling.reverse();
    let sloped = [RISING, falling].map(|values| rows_of(&values));
    for table in tied().into_iter().chain(sloped) {
        list.tables.set(&table)?;
        for (k, gap) in [(2, 0.0), (16, 1.0)] {
            on_its_way(list, random, k, gap)?;
        }
    }
    for v in EDGES {
        list.tables.set(&flat(4, v))?;
        on_its_way(list, random, 5, 0.5)?;
    }
    for first in [60, 90, 120] {
        list.tables.panel(first, 8)?;
        for (k, gap) in [(1, 0.0), (3, 1.5), (8, 2.5)] {
            on_its_way(list, random, k, gap)?;
        }
    }
    Ok(())
}

/// Writes random calls over random tables for new jobs.
fn new_jobs(list: &mut Ceilings, random: &mut Random) -> io::Result<()> {
    for (i, levels) in [83, 84, 87, 91, 95, 100].into_iter().enumerate() {
        for kind in [i, (i + 3) % CHEAP] {
            small_gaps::random_table(&mut list.tables, random, kind, levels)?;
            random_calls(list, random, small_gaps::random_gap, 2 * A_JOB)?;
        }
    }
    Ok(())
}

/// Writes calls for new jobs over 100 levels at half-unit edges from 40 up and the f32 next to each, to
/// where the last pair alone is far enough apart and beyond.
fn half_units(list: &mut Ceilings) -> io::Result<()> {
    even(&mut list.tables, 100, 20.0)?;
    for by in [0.125, -0.125] {
        list.tables.set(&sloped(by))?;
        for edge in [LEAST_GAP, 40.5, 44.0, 48.5] {
            for gap in near(edge).into_iter().filter(|gap| *gap >= LEAST_GAP) {
                at_turns(list, 2, gap)?;
            }
        }
    }
    Ok(())
}

/// Writes calls for a job over the table at both ends and at the positions of `turns`.
fn at_turns(list: &mut Ceilings, k: u32, gap: f32) -> io::Result<()> {
    let begun = begun(list, k, gap);
    let ends = vec![0, begun.pairs() as u32];
    list.along(begun, [ends, turns(begun)].concat())
}

/// Writes calls over all 169 levels with gaps at which the last pair qualifies or none does, and the
/// f32 next to each.
fn farthest(list: &mut Ceilings, random: &mut Random) -> io::Result<()> {
    far_table(&mut list.tables)?;
    for gap in FAR {
        on_its_way(list, random, 2, gap)?;
        at_turns(list, 7, float_step(gap, -1))?;
        if gap < 84.0 {
            at_turns(list, 16, float_step(gap, 1))?;
        }
    }
    Ok(())
}

/// Writes calls over the panel's own table for every hue count at gap 40, and for some at other gaps; and
/// those that `lamp` makes for its kept input.
fn whole_panel(list: &mut Ceilings) -> io::Result<()> {
    list.tables.panel(0, LEVELS)?;
    let asked = begun(list, 2, LEAST_GAP);
    let progress = (1..=9).map(|line| line * LAMP_BETWEEN);
    list.along(asked, progress.chain([asked.pairs() as u32]).collect())?;
    let each = (1..=16).map(|k| (k, LEAST_GAP));
    for (k, gap) in each.chain([(1, 0.0), (4, 10.0), (8, 25.0), (6, 83.0)]) {
        let begun = begun(list, k, gap);
        list.along(begun, PANEL_POSITIONS.to_vec())?;
    }
    Ok(())
}

/// A random position of a job: near an end, one of `turns` or before the last of them, or any.
fn random_position(random: &mut Random, begun: Job) -> u32 {
    let (pairs, turns) = (begun.pairs() as u32, turns(begun));
    let below = |random: &mut Random, n: u32| random.below(n as usize + 1) as u32;
    let near = below(random, 3).min(pairs);
    match random.below(6) {
        0 => near,
        1 => pairs - near,
        2 if !turns.is_empty() => random.pick(&turns),
        3 | 4 => below(random, turns.last().copied().unwrap_or(pairs)),
        _ => below(random, pairs),
    }
}

/// Writes so many random calls over the table, eight for one job with the gap that this gives: half of
/// them lent records on its way, the others records that are made up, of which about one in six has a
/// fault or more.
fn random_calls(
    list: &mut Ceilings,
    random: &mut Random,
    gap_for: GapFor,
    some: usize,
) -> io::Result<()> {
    let levels = list.tables.table().len() / DIRECTIONS;
    for first in (0..some).step_by(A_JOB) {
        let count = A_JOB.min(some - first);
        let k = random.below(16) as u32 + 1;
        let begun = begun(list, k, gap_for(random, levels));
        let mut positions = (0..count).map(|_| random_position(random, begun));
        let on_its_way: Vec<u32> = positions.by_ref().take(count / 2).collect();
        let others: Vec<u32> = positions.collect();
        list.along(begun, on_its_way)?;
        for position in others {
            let job = made_up(list, random, begun, position);
            let set = match random.below(6) {
                0 => random.below(7) + 1,
                _ => 0,
            };
            faulty(list, random, job, set)?;
        }
    }
    Ok(())
}
