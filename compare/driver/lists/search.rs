//! The search list, for `search_cases`: a table, a job, and starts, steps and whole searches over both.
//!
//! The jobs are of two kinds. A new job is one that a start or a whole search begins, whose gap is 40 or
//! more. A kept job has a smaller gap, with which document 01's start began it: in a list it is the job
//! that this start gave, lent in place of a start. A whole search is what the published `search` gives;
//! a step is document 01's rule over the published `best_for_levels`; and the driver stops unless all
//! steps end in the record that the published `search` gives, for kept jobs wherever one is run to its
//! end, and for new jobs wherever a table has at most 100 levels. That a start and a search refuse a gap
//! below 40 has nothing in the Rust to be compared with. Where a start refuses nothing else, the job
//! that it was lent goes on, or the kept job comes after it: after a start it is lent, and steps go on
//! with it; after a whole search it is run to its end in each room that is long enough, all steps but
//! the last in one line and the last in a line of its own, and at last there is one more, which is
//! refused.
//!
//! The fixed list holds starts, steps and whole searches with every set of the faults that each can
//! have, where the gap is at fault once as no job may have it and once as a kept one may; a step for
//! each field of a job out of its range, and at the ends of the ranges; steps at pairs too close
//! together, over rows that are refused; tables in which many pairs reach the best chroma, of which the
//! first must win; gaps from 82 to 84 over 169 levels, where 83 is the last at which a pair qualifies;
//! every hue count; what `small_gaps` has of gaps around 40; the panel's own table of 169 levels,
//! searched for every hue count at gap 40, for some at other gaps, and twice step by step; and steps of
//! records by their tightest gap, at the ends of its range and beyond, and with one that is not that of
//! the hues. A record that is made up has the tightest gap of its hues, 1 where two of them are equal,
//! and 0 with none so far, unless it is damaged.
//!
//! Rooms are those that `rooms` gives, but for searches of the panel's own table, which have one lap and
//! three alone, long runs over 83 levels or more, some of which have one, and searches whose room is
//! written here, which have one of the two: of 259 accepted searches 110 have both.
//!
//! A random list has 24 calls or a few more on the same table: starts, steps, runs of steps and whole
//! searches, some of them with a damaged job, a short work buffer, a table of another length or an
//! entry that is refused. Half of the tables have 1 to 12 levels in turn and gaps of kept jobs; the
//! other half have 83 to 100 levels in turn and gaps of 40, at or beside the half-unit edges that so
//! many levels can have, or any from 40 to 50, and about one in twelve below 40. After the calls on each
//! table comes a kept job in its midst, with a start over it that is refused for its gap and steps that
//! go on, and half the time a start that is accepted over it, and one over that new job that is refused.
//! The rows of a table are flat, in bands, flat but for single entries, rising or falling by level,
//! mostly below 35, jagged where there are few, or the panel's, and many of them are equal; of 83 or
//! more, those that no new job reaches are all of one value, unless they are the panel's.

use crate::files::Files;
use crate::lists::placement::{EDGES, REFUSED};
use crate::lists::rooms::{edges, laps, Rooms};
use crate::lists::small_gaps;
use crate::models::job::{step_refusal, Job, BROKEN, FLOOR, LEAST_GAP, ROOM};
use crate::models::search::Searches;
use crate::models::table::{Tables, STORED};
use crate::random::Random;
use crate::standins::{DIRECTIONS, LEVELS};
use crate::words::float_step;
use std::io;

/// Gaps that are refused, and that no record may have.
pub const BAD_GAPS: [f32; 7] = [
    f32::NAN,
    -0.0,
    85.0,
    84.00001,
    -1e-45,
    f32::INFINITY,
    f32::NEG_INFINITY,
];
/// Gaps that are refused to a new job, and that a record may have; the greatest of them.
pub const SMALL_GAPS: [f32; 5] = [0.0, 1e-45, 0.5, 39.5, SMALL];
pub const SMALL: f32 = LEAST_GAP.next_down();
/// Hue counts that are refused, one of which is taken where its high bits get lost.
pub const BAD_COUNTS: [u32; 4] = [0, 17, u32::MAX, 257];
/// Lengths of a table at and beyond the ends of what is taken, and at and beside those of a row.
pub const LENGTHS: [usize; 16] = [
    0,
    1,
    DIRECTIONS - 1,
    DIRECTIONS,
    DIRECTIONS + 1,
    2 * DIRECTIONS,
    3 * DIRECTIONS - 1,
    3 * DIRECTIONS,
    3 * DIRECTIONS + 1,
    65_536,
    (LEVELS - 1) * DIRECTIONS,
    LEVELS * DIRECTIONS - 1,
    LEVELS * DIRECTIONS,
    LEVELS * DIRECTIONS + 1,
    STORED - 1,
    STORED,
];
/// Chromas that no best may have.
const BAD_CHROMAS: [f32; 8] = [
    34.9,
    34.999996,
    200.1,
    200.00002,
    f32::NAN,
    -40.0,
    0.0,
    f32::INFINITY,
];
/// How many calls of a random list are over one table.
pub const CALLS: usize = 24;

/// Writes the fixed list.
pub fn fixed(files: &mut Files) -> io::Result<()> {
    let mut list = Searches::begin(files, Rooms::InTurn(0))?;
    let mut random = Random(13);
    starts(&mut list)?;
    lengths(&mut list)?;
    gaps_taken(&mut list)?;
    broken(&mut list)?;
    not_broken(&mut list)?;
    orders(&mut list)?;
    passed_over(&mut list)?;
    searches_refused(&mut list)?;
    first_wins(&mut list)?;
    counts(&mut list)?;
    half_units(&mut list)?;
    farthest(&mut list)?;
    for levels in 1..=12 {
        for kind in 0..CHEAP {
            random_table(&mut list, &mut random, kind, levels)?;
            random_calls(&mut list, &mut random, random_gap, 9)?;
        }
    }
    small_gaps::fixed(&mut list)?;
    whole_panel(&mut list)?;
    tightest_gaps(&mut list)?;
    in_the_midst(&mut list)?;
    list.end()?;
    let own = [
        "job 0 0 0 0",
        "best 0 0 0",
        "start 1",
        "step 961",
        "steps 1 961",
        "search 1 0 961",
    ];
    list.damaged(&own, ("step", &[0]))
}

/// Writes a step of a job in the midst of its search over each of two tables.
fn in_the_midst(list: &mut Searches) -> io::Result<()> {
    for (turn, table) in [(4, flat(4, 50.0)), (1, rows_of(&[50.0, 60.0, 50.0, 0.0]))] {
        list.rooms = Rooms::InTurn(turn);
        list.set(&table)?;
        list.lend(MIDST)?;
        list.step()?;
    }
    Ok(())
}

/// Writes a random list of at least this many calls, 24 or more over the same table. By turns a
/// table has 1 to 12 levels, for kept jobs, or 83 to 100, for new ones.
pub fn many(files: &mut Files, seed: u64, count: usize) -> io::Result<()> {
    let mut list = Searches::begin(files, Rooms::of_seed(seed))?;
    let mut random = Random(seed);
    let mut left = count;
    while left > 0 {
        let turn = (count - left) / CALLS;
        let some = left.min(CALLS);
        let gap_for = table_in_turn(&mut list, &mut random, turn)?;
        random_calls(&mut list, &mut random, gap_for, some)?;
        small_gaps::over_kept(&mut list, &mut random)?;
        left -= some;
    }
    list.end()
}

/// A table of so many rows of one value.
pub fn flat(levels: usize, v: f32) -> Vec<f32> {
    vec![v; levels * DIRECTIONS]
}

/// A table of rows of these values, each of one of them.
pub fn rows_of(values: &[f32]) -> Vec<f32> {
    let rows = values.iter().map(|v| vec![*v; DIRECTIONS]);
    rows.collect::<Vec<_>>().concat()
}

/// A record in the midst of a search over four levels.
pub const MIDST: Job = Job {
    k: 3,
    gap: 0.5,
    levels: 4,
    position: 2,
    best: Some((40.0, 0, 3)),
    hues: [0, 300, 719, 0, 0, 0, 0, 0, 0, 0, 0, 0, 0, 0, 0, 0],
    tightest: 1,
};

/// The same with none so far.
pub const MIDST_NONE: Job = Job {
    best: None,
    hues: [0; 16],
    tightest: 0,
    ..MIDST
};

/// A record with every field out of its range.
pub const WORST: Job = Job {
    k: u32::MAX,
    gap: f32::NAN,
    levels: 0,
    position: u32::MAX,
    best: Some((f32::NAN, u32::MAX, u32::MAX)),
    hues: [u16::MAX; 16],
    tightest: u32::MAX,
};

/// Writes starts with every set of the faults that one can have, of which the lowest is given.
fn starts(list: &mut Searches) -> io::Result<()> {
    list.set(&flat(4, 50.0))?;
    for (i, lent) in [WORST, MIDST].into_iter().enumerate() {
        for set in 0..16 {
            list.lend(lent)?;
            list.resize(4 * DIRECTIONS - set / 4 % 2)?;
            let last = list.table().len() - 1;
            let bad = REFUSED[(set + i) % REFUSED.len()];
            list.more(last, &[if set & 8 != 0 { bad } else { 50.0 }])?;
            let k = if set & 1 != 0 {
                BAD_COUNTS[(set / 2 + i) % 4]
            } else {
                2
            };
            if set & 2 != 0 {
                list.start_alone(k, BAD_GAPS[(set + 3 * i) % 7])?;
                list.start_alone(k, SMALL_GAPS[(set + 3 * i) % 5])?;
            } else {
                list.start_alone(k, 40.5)?;
            }
            list.more(last, &[50.0])?;
        }
    }
    Ok(())
}

/// Writes starts over tables of many lengths, and one step over each.
fn lengths(list: &mut Searches) -> io::Result<()> {
    list.resize(STORED)?;
    list.same(0, STORED, 50.0)?;
    let most = LEVELS * DIRECTIONS;
    for n in [
        0,
        1,
        719,
        720,
        721,
        1440,
        65536,
        most - 1,
        most,
        most + 1,
        STORED,
    ] {
        list.lend(MIDST)?;
        list.resize(n)?;
        list.start(2, LEAST_GAP)?;
        list.start(2, 0.0)?;
        list.search(1, 83.5)?;
        list.step()?;
    }
    Ok(())
}

/// Writes starts with gaps at and beyond the ends, and with every hue count.
fn gaps_taken(list: &mut Searches) -> io::Result<()> {
    list.set(&flat(3, 50.0))?;
    list.lend(WORST)?;
    for gap in BAD_GAPS.into_iter().chain(EDGES).chain([84.0, 83.99999]) {
        list.start(1, gap)?;
    }
    for k in (0..=17).chain(BAD_COUNTS) {
        list.start(k, 0.0)?;
        list.steps(3)?;
    }
    Ok(())
}

/// The records with one field but the tightest gap out of its range, made from one that has a best.
pub fn damaged(job: Job) -> Vec<Job> {
    let (chroma, dark, light) = job.best.expect("a best");
    let mut records = vec![];
    records.extend(BAD_COUNTS.map(|k| Job { k, ..job }));
    records.extend(BAD_GAPS.map(|gap| Job { gap, ..job }));
    records.extend([0, 170, u32::MAX].map(|levels| Job { levels, ..job }));
    let above = job.pairs() as u32 + 1;
    records.extend([above, u32::MAX].map(|position| Job { position, ..job }));
    let with = |best: (f32, u32, u32)| Job {
        best: Some(best),
        ..job
    };
    records.extend(BAD_CHROMAS.map(|chroma| with((chroma, dark, light))));
    for level in [job.levels, u32::MAX] {
        records.extend([with((chroma, level, light)), with((chroma, dark, level))]);
    }
    let hued = |at: usize, hue: u16| {
        let mut hues = job.hues;
        hues[at] = hue;
        Job { hues, ..job }
    };
    let k = job.k as usize;
    records.extend([0, k - 1].map(|at| hued(at, 720)));
    records.push(hued(0, u16::MAX));
    if k < 16 {
        records.extend([k, 15].map(|at| hued(at, 1)));
    }
    records.push(Job {
        best: None,
        tightest: 0,
        ..hued(0, 1)
    });
    records
}

/// A record with sixteen hues.
pub fn full() -> Job {
    let mut hues = [719; 16];
    hues.iter_mut()
        .enumerate()
        .for_each(|(i, hue)| *hue -= 40 * i as u16);
    let job = Job {
        k: 16,
        hues,
        ..MIDST
    };
    job.filled_in()
}

/// Writes a step for each record with one field out of its range.
fn broken(list: &mut Searches) -> io::Result<()> {
    list.set(&flat(4, 50.0))?;
    for good in [MIDST, full()] {
        list.lend(good)?;
        list.step()?;
        for job in damaged(good) {
            list.lend(job)?;
            list.step()?;
        }
    }
    Ok(())
}

/// Records with one field at the ends of its range, which are not broken; but for the one over three
/// levels, whose best names a fourth.
pub fn at_ends() -> Vec<Job> {
    let with = |chroma: f32, dark: u32, light: u32| Job {
        best: Some((chroma, dark, light)),
        ..MIDST
    };
    let at = |position: u32| Job { position, ..MIDST };
    let apart = |gap: f32| Job { gap, ..MIDST };
    let mut records = vec![with(35.0, 0, 3), with(200.0, 3, 3), with(35.000004, 2, 0)];
    records.extend([with(49.999996, 3, 0), with(50.0, 1, 1), MIDST_NONE]);
    records.extend([at(0), at(3), at(15), at(16)]);
    records.extend([apart(0.0), apart(1e-45), apart(84.0), full()]);
    records.extend([
        Job { levels: 3, ..MIDST },
        Job {
            levels: 169,
            ..MIDST_NONE
        },
    ]);
    records
}

/// Writes steps for records at the ends of their ranges.
fn not_broken(list: &mut Searches) -> io::Result<()> {
    for job in at_ends() {
        let levels = if job.levels == 3 { 4 } else { job.levels };
        list.set(&flat(levels as usize, 50.0))?;
        list.lend(job)?;
        list.step()?;
        list.step()?;
    }
    Ok(())
}

/// Writes steps with every set of the faults that one can have, which are found in the order
/// 15, 14, 6, 8, 7.
fn orders(list: &mut Searches) -> io::Result<()> {
    list.set(&flat(5, 50.0))?;
    for set in 0..32 {
        let has = |fault: usize| set & 1 << fault != 0;
        let mut job = MIDST;
        if has(0) {
            let records = damaged(MIDST);
            job = records[7 * set % records.len()];
        }
        if has(1) {
            job.position = 16;
        }
        list.lend(job)?;
        list.resize(4 * DIRECTIONS)?;
        list.more(5, &[if has(4) { -0.0 } else { 50.0 }])?;
        if has(2) {
            list.resize([4 * DIRECTIONS - 1, 5 * DIRECTIONS][set % 2])?;
        }
        if has(3) {
            list.step_in(&[ROOM - 1 - set])?;
        } else {
            list.step()?;
        }
    }
    list.resize(4 * DIRECTIONS)?;
    list.more(5, &[50.0])?;
    list.lend(MIDST)?;
    list.step_in(&edges(ROOM))
}

/// Writes steps at pairs that are too close together: what is wrong with their rows is passed
/// over, and a wrong table or a short buffer is not; at other pairs only two rows are read.
fn passed_over(list: &mut Searches) -> io::Result<()> {
    list.set(&flat(4, 50.0))?;
    list.lend(MIDST)?;
    for (i, bad) in REFUSED.into_iter().enumerate() {
        let (row, place) = (i % 4, [0, 719, 360][i % 3]);
        list.more(row * DIRECTIONS + place, &[bad])?;
        for position in [0, 3, 5, 12] {
            let job = Job { position, ..MIDST };
            list.lend(job)?;
            list.step()?;
            list.lend(job)?;
            list.step_in(&[ROOM - 1])?;
            list.resize(4 * DIRECTIONS + 1)?;
            list.step()?;
            list.resize(4 * DIRECTIONS)?;
        }
        list.search(2, 0.0)?;
        list.search_in(2, LEAST_GAP, &[ROOM])?;
        list.lend(Job {
            position: 0,
            ..MIDST
        })?;
        list.steps(17)?;
        list.more(row * DIRECTIONS + place, &[50.0])?;
    }
    Ok(())
}

/// Writes whole searches with every set of the faults that one can have, of which the lowest
/// is given.
fn searches_refused(list: &mut Searches) -> io::Result<()> {
    list.set(&flat(4, 50.0))?;
    for set in 0..32 {
        let has = |fault: usize| set & 1 << fault != 0;
        list.lend([WORST, MIDST][set % 3 % 2])?;
        list.resize(4 * DIRECTIONS + usize::from(has(2)))?;
        list.more(720, &[if has(3) { REFUSED[set % 8] } else { 50.0 }])?;
        let k = if has(0) { BAD_COUNTS[set % 4] } else { 2 };
        let gap = if has(1) { BAD_GAPS[set % 7] } else { 40.5 };
        let short = ROOM - 1 - set;
        if has(4) {
            list.search_alone(k, gap, &[short])?;
        } else {
            list.search(k, gap)?;
        }
        if has(1) {
            let room = if has(4) { short } else { ROOM };
            list.search_alone(k, SMALL_GAPS[set % 5], &[room])?;
        }
        list.step()?;
    }
    list.resize(4 * DIRECTIONS)?;
    list.more(720, &[50.0])?;
    list.search_in(2, 0.5, &laps(ROOM))?;
    for gap in [0.0, LEAST_GAP] {
        list.search_in(2, gap, &edges(ROOM))?;
        list.search_in(2, gap, &[2400])?;
    }
    Ok(())
}

/// Tables of rows of one value in which many pairs reach the best chroma, by its bits or but for
/// the last of them.
pub fn tied() -> Vec<Vec<f32>> {
    let up = |by: i32| float_step(50.0, by);
    let rows = [
        vec![50.0; 7],
        vec![FLOOR; 5],
        vec![200.0; 5],
        vec![40.0, 50.0, 60.0, 50.0, 60.0, 50.0, 60.0],
        vec![60.0, 60.0, 45.0, 60.0, 60.0, 45.0, 60.0],
        vec![up(0), up(1), up(2), up(3), up(2), up(3), up(3), up(3)],
        vec![up(3), up(2), up(1), up(0), up(3), up(2), up(3), up(3)],
        vec![36.0, 37.0, 38.0, 39.0, 40.0, 41.0, 42.0, 43.0, 44.0],
        vec![44.0, 43.0, 42.0, 41.0, 40.0, 39.0, 38.0, 37.0, 36.0],
        vec![34.999996; 6],
        vec![20.0, 35.0, 20.0, 35.0, 20.0],
    ];
    rows.map(|values| rows_of(&values)).to_vec()
}

/// Writes searches over tables in which many pairs reach the best chroma.
fn first_wins(list: &mut Searches) -> io::Result<()> {
    for table in tied() {
        list.set(&table)?;
        for (k, gap) in [(2, 0.0), (5, 0.5), (16, 1.0)] {
            list.search(k, gap)?;
            list.run(k, gap)?;
        }
        list.start(4, 0.0)?;
        for _ in 0..9 {
            list.step()?;
        }
    }
    Ok(())
}

/// Writes searches and runs for every hue count, and a job that is begun anew in its midst.
fn counts(list: &mut Searches) -> io::Result<()> {
    for first in [60, 90, 120] {
        list.panel(first, 8)?;
        for k in 1..=16 {
            list.search(k, 0.0)?;
            list.start(k, 1.5)?;
            list.steps(30)?;
        }
        list.start(2, 1.0)?;
        list.steps(35)?;
    }
    Ok(())
}

/// The values of rows that rise with the level.
pub const RISING: [f32; 12] = [
    40.0, 41.0, 42.0, 43.0, 44.0, 45.0, 46.0, 47.0, 48.0, 49.0, 50.0, 51.0,
];

/// Writes searches with gaps at the half-unit edges and the f32 next to each.
fn half_units(list: &mut Searches) -> io::Result<()> {
    list.set(&rows_of(&RISING))?;
    for half in 0..11 {
        let gap = 0.5 * half as f32;
        for gap in [float_step(gap, -1), gap, float_step(gap, 1)] {
            list.search(2, gap)?;
        }
        list.run(3, gap + 0.25)?;
    }
    Ok(())
}

/// Gaps at which the last pairs of 169 levels qualify or none does.
pub const FAR: [f32; 5] = [82.0, 82.5, 83.0, 83.5, 84.0];

/// Sets the table to the panel's 169 levels with another chroma at the first and the last two.
pub fn far_table(list: &mut Tables) -> io::Result<()> {
    list.panel(0, LEVELS)?;
    for level in [0, 1, LEVELS - 2, LEVELS - 1] {
        let v = 50.0 + (level % 5) as f32;
        list.same(level * DIRECTIONS, DIRECTIONS, v)?;
    }
    Ok(())
}

/// Writes searches over all 169 levels with gaps at which the last pair qualifies or none does.
fn farthest(list: &mut Searches) -> io::Result<()> {
    far_table(list)?;
    for gap in FAR {
        for gap in [-1, 0, 1].map(|by| float_step(gap, by)) {
            list.search(2, gap)?;
        }
    }
    list.run(7, 83.0)?;
    list.run(8, 84.0)
}

/// Writes searches over the panel's own table, and two of them step by step, one with other calls
/// between. What takes long has one lap and three, and no room in turn.
fn whole_panel(list: &mut Searches) -> io::Result<()> {
    list.panel(0, LEVELS)?;
    let rooms = laps(ROOM);
    for k in 1..=16 {
        list.search_in(k, 40.0, &rooms)?;
    }
    for (k, gap) in [
        (1, 0.0),
        (2, float_step(40.0, 1)),
        (3, 39.5),
        (4, 10.0),
        (8, 25.0),
        (5, 60.0),
        (16, 4.0),
        (6, 83.0),
    ] {
        list.search_in(k, gap, &rooms)?;
    }
    list.start(2, 40.0)?;
    list.steps_in(10_000, &rooms)?;
    list.start(17, 40.0)?;
    list.step_in(&[ROOM - 1])?;
    list.search(2, 85.0)?;
    list.steps_in(18_500, &rooms)?;
    for _ in 0..62 {
        list.step()?;
    }
    list.start(8, 40.0)?;
    list.steps_in(LEVELS * LEVELS + 1, &rooms)
}

/// Writes steps of records by their tightest gap: at and beyond the ends of its range, with a best and
/// with none so far; and wrong ones in that range, which stay until a better pair is found.
fn tightest_gaps(list: &mut Searches) -> io::Result<()> {
    list.files.comment("Jobs by their tightest gap.")?;
    list.set(&flat(4, 50.0))?;
    for (job, tightest, is_broken) in [
        (MIDST, 0, true),
        (MIDST, 1, false),
        (MIDST, 720, false),
        (MIDST, 721, true),
        (MIDST, u32::MAX, true),
        (MIDST_NONE, 0, false),
        (MIDST_NONE, 1, true),
        (MIDST_NONE, 5, true),
        (MIDST_NONE, 720, true),
        (MIDST_NONE, 721, true),
    ] {
        let job = Job { tightest, ..job };
        let refused = step_refusal(list.table(), ROOM, &job);
        assert!(refused == is_broken.then_some(BROKEN), "broken, or not");
        // The first pair is too close together, the fourth is better than the best, and there is none
        // after the sixteenth.
        for position in [0, 3, 16] {
            list.lend(Job { position, ..job })?;
            list.step()?;
        }
    }
    wrong_gaps(list)
}

/// Writes steps of a job whose tightest gap is in its range and not that of its hues: over rows of 40 it
/// stays, and over rows of 50 the fourth step replaces it by that of the hues found.
fn wrong_gaps(list: &mut Searches) -> io::Result<()> {
    let mut job = Job {
        k: 2,
        position: 0,
        tightest: 7,
        ..MIDST
    };
    job.hues = [0; 16];
    job.hues[1] = 360;
    for (v, last) in [(40.0, 7), (50.0, 301)] {
        list.set(&flat(4, v))?;
        list.lend(job)?;
        let mut gaps = vec![];
        for _ in 0..5 {
            list.step()?;
            gaps.push(list.job().tightest);
        }
        assert!(gaps == [7, 7, 7, last, last], "another tightest gap");
        list.lend(job)?;
        list.steps(job.pairs() as usize + 1)?;
        assert!(list.job().tightest == last, "another tightest gap");
    }
    Ok(())
}

/// How many kinds of random tables there are, and how many of them take few lines.
pub const KINDS: usize = 9;
pub const CHEAP: usize = 7;
/// The kind of a random table that has the panel's rows.
pub const PANEL: usize = 6;

/// A row of a few bands, each of one of these values.
pub fn banded(random: &mut Random, values: &[f32]) -> Vec<f32> {
    let mut ends: Vec<usize> = (0..random.below(6)).map(|_| random.below(720)).collect();
    ends.push(0);
    ends.sort_unstable();
    ends.push(DIRECTIONS);
    let bands = ends.windows(2);
    let band = |ends: &[usize]| vec![random.pick(values); ends[1] - ends[0]];
    bands.map(band).collect::<Vec<_>>().concat()
}

/// A few chromas, most of them at least 35.
fn chromas(random: &mut Random) -> Vec<f32> {
    let some = random.between(30.0, 200.0);
    let v = random.pick(&[FLOOR, 50.0, 64.0, 128.0, some]);
    let other = random.between(36.0, 199.0);
    vec![
        v,
        random.near(v).min(200.0),
        other,
        random.near(other),
        20.0,
    ]
}

/// A row of a random table of this kind: flat, banded, flat but for single entries, rising or
/// falling with the level, mostly below 35, or jagged.
fn row(random: &mut Random, kind: usize, level: usize, values: &[f32]) -> Vec<f32> {
    let v = random.pick(values);
    match kind {
        0 => vec![v; DIRECTIONS],
        1 => banded(random, values),
        2 => {
            let mut row = vec![v; DIRECTIONS];
            for _ in 0..random.below(6) {
                row[random.below(720)] = random.between(0.0, 200.0);
            }
            row
        }
        3 => vec![values[2] + level as f32 * 0.0625; DIRECTIONS]
            .iter()
            .map(|v| v.min(200.0))
            .collect(),
        4 => vec![values[2] - level as f32 * 0.0625; DIRECTIONS],
        5 => banded(random, &[20.0, 34.999996, FLOOR, 34.0]),
        _ => (0..720).map(|_| random.between(20.0, 200.0)).collect(),
    }
}

/// Sets a random table of this kind and so many levels: rows as above of which some are equal,
/// or rows of the panel, some of them changed in one place.
pub fn random_table(
    list: &mut Tables,
    random: &mut Random,
    kind: usize,
    levels: usize,
) -> io::Result<()> {
    if kind == PANEL {
        list.panel(random.below(LEVELS - levels), levels)?;
        let at = random.below(levels * DIRECTIONS);
        let v = random.between(0.0, 200.0);
        return list.more(at, &[v]);
    }
    list.set(&random_rows(random, kind, levels).concat())
}

/// The rows of a random table of this kind, but the panel's, and so many levels.
pub fn random_rows(random: &mut Random, kind: usize, levels: usize) -> Vec<Vec<f32>> {
    let values = chromas(random);
    let others = random.below(levels) + 1;
    let kinds = [kind, if kind == 8 { 1 } else { kind }];
    let rows: Vec<Vec<f32>> = (0..others.min(6))
        .map(|level| {
            let kind = random.pick(&kinds);
            row(random, kind, level, &values)
        })
        .collect();
    (0..levels)
        .map(|level| match kind {
            3 | 4 => row(random, kind, level, &values),
            _ => rows[random.below(rows.len())].clone(),
        })
        .collect()
}

/// A random gap: 0, a half-unit edge that a table of so many levels can have or the f32 next to
/// it, or any.
pub fn random_gap(random: &mut Random, levels: usize) -> f32 {
    let edge = 0.5 * random.below(levels.max(3) - 2) as f32;
    match random.below(8) {
        0 | 1 => 0.0,
        2..5 => edge,
        5 => float_step(edge, 1),
        6 if edge > 0.0 => float_step(edge, -1),
        _ => random.between(0.0, 5.0),
    }
}

/// What gives a random gap for so many levels.
pub type GapFor = fn(&mut Random, usize) -> f32;

/// Sets the random table of a turn, and gives what gives gaps for it: by turns it has 1 to 12 levels,
/// for kept jobs, or 83 to 100, for new ones.
pub fn table_in_turn(list: &mut Tables, random: &mut Random, turn: usize) -> io::Result<GapFor> {
    if turn % 2 == 0 {
        let kind = random.below(KINDS);
        random_table(list, random, kind, turn / 2 % 12 + 1)?;
        return Ok(random_gap);
    }
    let kind = random.below(CHEAP);
    small_gaps::random_table(list, random, kind, turn / 2 % 18 + 83)?;
    Ok(small_gaps::random_gap)
}

/// Writes so many random calls over the table, and now and then a few more, with the gaps that this
/// gives for so many levels.
pub fn random_calls(
    list: &mut Searches,
    random: &mut Random,
    gap_for: GapFor,
    some: usize,
) -> io::Result<()> {
    let levels = list.table().len() / DIRECTIONS;
    for turn in 0..some {
        let k = random.below(16) as u32 + 1;
        let gap = gap_for(random, levels);
        match if turn == 0 { 0 } else { random.below(16) } {
            0 | 1 => list.start(k, gap)?,
            2 => list.start(random.pick(&BAD_COUNTS), gap)?,
            3 => list.start(k, random.pick(&BAD_GAPS))?,
            4..7 => list.step()?,
            7 | 8 => list.steps(random.below(levels * levels + 3))?,
            9 => list.run(k, gap)?,
            10 => list.step_in(&[random.below(ROOM)])?,
            11 => list.search_in(k, gap, &[random.below(ROOM)])?,
            12 => random_damage(list, random)?,
            13 => spoilt(list, random, k, gap)?,
            _ => list.search(k, gap)?,
        }
    }
    Ok(())
}

/// Writes calls with a record that is damaged in one field or two.
fn random_damage(list: &mut Searches, random: &mut Random) -> io::Result<()> {
    let kept = list.job();
    let good = if kept.best.is_some() { kept } else { MIDST };
    if good.k == 0 || good.levels == 0 {
        return list.step();
    }
    let records = damaged(good);
    let mut job = records[random.below(records.len())];
    if random.below(2) == 0 {
        job.hues = random.pick(&[job.hues, [0; 16], [719; 16]]);
        job.position = random.pick(&[0, job.position, job.pairs() as u32]);
        job.levels = random.pick(&[job.levels, 1, LEVELS as u32]);
    }
    list.lend(job)?;
    list.step()?;
    if random.below(2) == 0 {
        list.start(random.pick(&[0, 3]), 0.5)?;
        list.step()?;
    }
    list.lend(kept)
}

/// Writes calls over a table with one entry that is refused, or of another length.
fn spoilt(list: &mut Searches, random: &mut Random, k: u32, gap: f32) -> io::Result<()> {
    let length = list.table().len();
    let at = random.below(length);
    let kept = list.table()[at];
    if random.below(2) == 0 {
        list.more(at, &[random.pick(&REFUSED)])?;
    } else {
        list.resize(random.pick(&[0, length - 1, length + 1, length + 720, length - 720]))?;
    }
    list.step()?;
    list.steps(5)?;
    match random.below(2) {
        0 => list.start(k, gap)?,
        _ => list.search(k, gap)?,
    }
    list.resize(length)?;
    list.more(at, &[kept])
}
