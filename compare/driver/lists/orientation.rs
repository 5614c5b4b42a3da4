//! The orientation list, for `orientation_cases`: bests with one hue fixed, what the published
//! `best_at_orientation` gives.
//!
//! The fixed list holds calls that follow from the rule without working out a table, which must come
//! out as they stand here, else the driver stops; every set of the four refusals, of which the lowest
//! number is given; tables of 0 to 170 x 720 entries; hues at and beyond the ends, some of which are
//! taken where their high bits get lost; entries and gaps at and beyond the ends, gaps at the half-unit
//! edges and from 82 to 84 over 169 levels, each with the f32 next to it; each of the four entries as
//! the least, at 35, at 50 and beside them; partners 300, 301, 419 and 420 positions on; pairs and
//! partners of equal chroma, of which the first must win, or one f32 apart; random tables with 1 to 12
//! levels; and the panel's own table with all 720 hues at gap 40 and some at other gaps. At gap 40 none
//! must be found for 279 of the hues, and the greatest chroma over all must be the one that the
//! published `search` finds for two hues, else the driver stops.
//!
//! A random list has 64 calls on the same table, of which the levels go from 1 to 12 in turn; the
//! tables are those of the search list that take few lines, tables in which every entry is one of four
//! neighbours, and tables of one small value but for two hues and a few places 299 to 421 positions on
//! from each; half of the calls ask for one of two hues, which those places belong to, and about one
//! call in 16 has a fault or more. Wherever a table has at most 12 levels the driver stops unless the
//! answer is the first of all pairs and partners with the greatest value, worked out a second time from
//! all of them.

use crate::files::Files;
use crate::lists::placement::{EDGES, REFUSED};
use crate::lists::search::{
    far_table, flat, random_gap, random_table, rows_of, tied, BAD_GAPS, CHEAP, FAR, LENGTHS, RISING,
};
use crate::models::job::{self, FLOOR, ROOM};
use crate::models::orientation::{Asked, Orientations};
use crate::models::table::{Tables, ENTRIES_A_LINE, STORED};
use crate::random::Random;
use crate::standins::{DIRECTIONS, LEVELS};
use crate::words::{float_step, word};
use std::io;

/// Fixed hues at the ends of the ring and where the partners begin to go round it.
const HUES: [u32; 8] = [0, 300, 301, 360, 400, 419, 420, 719];
/// Hues that are refused, some of which are taken where their high bits get lost.
const BAD_HUES: [u32; 6] = [720, 721, 65_535, 65_541, u32::MAX - 719, u32::MAX];
/// The f32 next below 35, and next above it.
const BELOW: f32 = 34.999996;
const ABOVE: f32 = 35.000004;
/// How many calls of a random list are over one table.
const CALLS: usize = 64;
/// What the panel's table holds at gap 40: at how many hues there is none, and the bits of the
/// greatest chroma over all.
const PANEL_NONE: usize = 279;
const PANEL_MOST: u32 = 0x4272_d8d8;

/// Writes the fixed list.
pub fn fixed(files: &mut Files) -> io::Result<()> {
    let mut list = Orientations::begin(files)?;
    let mut random = Random(17);
    by_hand(&mut list)?;
    of_each_kind(&mut list)?;
    refusals(&mut list, &mut random)?;
    lengths(&mut list)?;
    entries(&mut list)?;
    hues(&mut list)?;
    least_of_four(&mut list)?;
    partners(&mut list)?;
    orders(&mut list)?;
    gaps(&mut list)?;
    for levels in 1..=FEW {
        for kind in [levels % CHEAP, (levels + 3) % CHEAP, PARTNERED] {
            let hues = random_rows(&mut list, &mut random, kind, levels)?;
            random_calls(&mut list, &mut random, &hues, 8)?;
        }
    }
    whole_panel(&mut list)?;
    list.end()?;
    list.tables.damaged(&[], ("orient", &[0, 0]))
}

/// Writes a random list of this many calls, of which the tables have 1 to 12 levels in turn.
pub fn many(files: &mut Files, seed: u64, count: usize) -> io::Result<()> {
    let mut list = Orientations::begin(files)?;
    let mut random = Random(seed);
    let mut left = count;
    while left > 0 {
        let turn = (count - left) / CALLS;
        let kind = random.below(KINDS);
        let hues = random_rows(&mut list, &mut random, kind, turn % FEW + 1)?;
        let some = left.min(CALLS);
        random_calls(&mut list, &mut random, &hues, some)?;
        left -= some;
    }
    list.end()
}

/// The hue so many positions on.
fn on(hue: u32, by: u32) -> u32 {
    (hue + by) % DIRECTIONS as u32
}

/// Puts a value at these hues of these levels.
fn mark(list: &mut Orientations, levels: &[usize], hues: &[u32], v: f32) -> io::Result<()> {
    for level in levels {
        for hue in hues {
            let at = level * DIRECTIONS + *hue as usize;
            list.tables.more(at, &[v])?;
        }
    }
    Ok(())
}

/// Writes calls whose answers follow from the rule without working out a table.
fn by_hand(list: &mut Orientations) -> io::Result<()> {
    let chroma = word(50.0);
    list.tables.set(&flat(3, 50.0))?;
    list.must((0.0, 400), &[0, chroma, 0, 2, 701])?;
    list.tables.set(&flat(4, 50.0))?;
    list.must((0.0, 0), &[0, chroma, 0, 2, 301])?;
    list.must((f32::from_bits(0x3f00_0001), 0), &[0, chroma, 0, 3, 301])?;
    list.must((f32::from_bits(0x3f00_0002), 0), &[0])?;
    for (by, reached) in [(301, true), (419, true), (300, false), (420, false)] {
        list.tables.set(&flat(3, 1.0))?;
        mark(list, &[0, 2], &[0, by], 50.0)?;
        let expected = [0, chroma, 0, 2, by];
        list.must((0.0, 0), &expected[..if reached { 5 } else { 1 }])?;
    }
    list.tables.set(&flat(3, 1.0))?;
    mark(list, &[0, 2], &[400, 1], 50.0)?;
    list.must((0.0, 400), &[0, chroma, 0, 2, 1])?;
    list.must((0.0, 1), &[0, chroma, 0, 2, 400])?;
    for v in [FLOOR, f32::from_bits(0x4248_0001), ABOVE, 200.0] {
        list.tables.set(&flat(3, v))?;
        list.must((0.0, 7), &[0, word(v), 0, 2, 308])?;
    }
    list.tables.set(&flat(3, BELOW))?;
    list.must((0.0, 7), &[0])?;
    list.tables.set(&flat(2, 50.0))?;
    list.must((0.0, 7), &[0])?;
    list.tables.set(&flat(1, 50.0))?;
    list.must((f32::NAN, 0), &[2])?;
    list.must((-0.0, 0), &[2])?;
    list.must((0.0, 0), &[0])?;
    by_hand_refused(list)?;
    by_hand_farthest(list)
}

/// Writes calls with two faults, of which the lower number is given though the other lies nearer.
fn by_hand_refused(list: &mut Orientations) -> io::Result<()> {
    list.tables.set(&flat(3, 50.0))?;
    list.must((0.0, 720), &[12])?;
    mark(list, &[2], &[719], f32::NAN)?;
    list.must((0.0, 720), &[7])?;
    list.must((0.0, 0), &[7])?;
    list.tables.resize(3 * DIRECTIONS - 1)?;
    list.must((0.0, 720), &[6])?;
    list.must((85.0, 720), &[2])?;
    list.tables.resize(3 * DIRECTIONS)?;
    mark(list, &[2], &[719], 50.0)
}

/// Writes calls over 169 levels with a gap of 83, at which the first and the last level alone are
/// far enough apart, and with the next f32.
fn by_hand_farthest(list: &mut Orientations) -> io::Result<()> {
    list.tables.set(&flat(LEVELS, 50.0))?;
    for level in [0, LEVELS - 1] {
        list.tables.same(level * DIRECTIONS, DIRECTIONS, 40.0)?;
    }
    list.must((83.0, 719), &[0, word(40.0), 0, 168, 300])?;
    list.must((float_step(83.0, 1), 719), &[0])
}

/// Writes one call of each kind: found, none and refused.
fn of_each_kind(list: &mut Orientations) -> io::Result<()> {
    list.tables.set(&flat(4, 50.0))?;
    for asked in [(0.0, 0), (1.0, 0), (0.0, 720)] {
        list.orient(asked)?;
    }
    Ok(())
}

/// Writes calls with every set of the four faults, of kinds that change from round to round.
fn refusals(list: &mut Orientations, random: &mut Random) -> io::Result<()> {
    list.tables.set(&flat(4, 50.0))?;
    for _ in 0..6 {
        for set in 0..16 {
            let asked = (0.5 * random.below(2) as f32, random.pick(&HUES));
            faulty(list, random, asked, set)?;
        }
    }
    Ok(())
}

/// Writes a call with a set of faults: the gap for 1, the table's length for 2, an entry for 4 and
/// the hue for 8. Table and length are afterwards as before.
fn faulty(
    list: &mut Orientations,
    random: &mut Random,
    asked: Asked,
    set: usize,
) -> io::Result<()> {
    let has = |fault: usize| set & fault != 0;
    let (mut gap, mut hue) = asked;
    if has(1) {
        gap = random.pick(&BAD_GAPS);
    }
    if has(8) {
        hue = random.pick(&BAD_HUES);
    }
    let before = spoil(&mut list.tables, random, [has(2), has(4)])?;
    list.orient((gap, hue))?;
    mend(&mut list.tables, before)
}

/// What a table has before it is spoilt: its length, and the entry that is replaced, with its place.
pub type Before = (usize, Option<(usize, f32)>);

/// Gives a table that is taken another length, puts an entry into it that is refused, or both, and
/// gives what it has before. Without entries none is put there.
pub fn spoil(
    tables: &mut Tables,
    random: &mut Random,
    [length, entry]: [bool; 2],
) -> io::Result<Before> {
    let n = tables.table().len();
    if length {
        let most = LEVELS * DIRECTIONS;
        let lengths = [0, 1, n - 1, n + 1, n + 719, most + 1, STORED];
        tables.resize(random.pick(&lengths))?;
    }
    let read = tables.table().len();
    if !entry || read == 0 {
        return Ok((n, None));
    }
    let any = random.below(read);
    let at = random.pick(&[0, read - 1, any]);
    let kept = tables.table()[at];
    tables.more(at, &[random.pick(&REFUSED)])?;
    Ok((n, Some((at, kept))))
}

/// Gives a table that is spoilt what it had before.
pub fn mend(tables: &mut Tables, (length, entry): Before) -> io::Result<()> {
    if let Some((at, kept)) = entry {
        tables.more(at, &[kept])?;
    }
    if tables.table().len() == length {
        return Ok(());
    }
    tables.resize(length)
}

/// Writes calls over tables of many lengths, with a hue that is taken and one that is not.
fn lengths(list: &mut Orientations) -> io::Result<()> {
    list.tables.resize(STORED)?;
    list.tables.same(0, STORED, 50.0)?;
    for n in LENGTHS {
        list.tables.resize(n)?;
        list.orient((0.0, 719))?;
        list.orient((0.0, 720))?;
    }
    Ok(())
}

/// Writes calls over tables with an entry that is refused, or taken at the ends, where a pair and
/// a partner read it and where none does.
fn entries(list: &mut Orientations) -> io::Result<()> {
    list.tables.set(&flat(3, 50.0))?;
    let places = [0, 5, 301, 720, 725, 1440, 1741, 2159];
    for (i, v) in REFUSED.into_iter().chain(EDGES).enumerate() {
        for j in 0..4 {
            let at = places[(i + 2 * j) % places.len()];
            list.tables.more(at, &[v])?;
            list.orient((0.0, 0))?;
            list.tables.more(at, &[50.0])?;
        }
    }
    for v in EDGES {
        list.tables.set(&flat(3, v))?;
        list.orient((0.0, 360))?;
    }
    Ok(())
}

/// Writes calls with many hues, each with the nearest partner and, where the first two are too
/// small, with the third.
fn hues(list: &mut Orientations) -> io::Result<()> {
    list.tables.set(&flat(3, 50.0))?;
    for hue in (0..719).step_by(71).chain(HUES).chain([1, 418, 421, 718]) {
        list.must((0.0, hue), &[0, word(50.0), 0, 2, on(hue, 301)])?;
    }
    for hue in BAD_HUES.into_iter().chain([65_536, 1 << 31]) {
        list.must((0.0, hue), &[12])?;
    }
    for hue in HUES {
        let small = [on(hue, 301), on(hue, 302)];
        mark(list, &[2], &small, BELOW)?;
        list.must((0.0, hue), &[0, word(50.0), 0, 2, on(hue, 303)])?;
        mark(list, &[2], &small, 50.0)?;
    }
    Ok(())
}

/// Writes calls in which each of the four entries in turn is the least, at 35 and at 50 with the
/// f32 on both sides, and at the ends.
fn least_of_four(list: &mut Orientations) -> io::Result<()> {
    let [below, above] = [-1, 1].map(|by| float_step(50.0, by));
    let values = [0.0, 1e-45, BELOW, FLOOR, ABOVE, below, above, 200.0];
    list.tables.set(&flat(3, 1.0))?;
    for (i, hue) in HUES.into_iter().enumerate() {
        let partner = on(hue, [301, 419, 360, 302][i % 4]);
        mark(list, &[0, 2], &[hue, partner], 50.0)?;
        let (level, at) = ([0, 2][i % 2], [hue, partner][i / 2 % 2]);
        for v in values {
            mark(list, &[level], &[at], v)?;
            let expected = [0, word(v.min(50.0)), 0, 2, partner];
            list.must((0.0, hue), &expected[..if v < FLOOR { 1 } else { 5 }])?;
        }
        mark(list, &[0, 2], &[hue, partner], 1.0)?;
    }
    Ok(())
}

/// Writes calls with two partners of equal value, of which the nearest on is given, and of values
/// one f32 apart.
fn partners(list: &mut Orientations) -> io::Result<()> {
    list.tables.set(&flat(3, 1.0))?;
    for (i, hue) in HUES.into_iter().enumerate() {
        let steps = [(301, 419), (302, 303), (360, 418), (419, 420), (300, 301)];
        let (near, far) = steps[i % steps.len()];
        let (near, far) = (on(hue, near), on(hue, far));
        mark(list, &[0, 2], &[hue], 60.0)?;
        mark(list, &[0, 2], &[far], 50.0)?;
        for by in [-1, 0, 1] {
            mark(list, &[0, 2], &[near], float_step(50.0, by))?;
            list.orient((0.0, hue))?;
        }
        mark(list, &[0, 2], &[hue, near, far], 1.0)?;
    }
    Ok(())
}

/// Writes calls over tables in which many pairs reach the best chroma, of which the first is given
/// whatever its partner.
fn orders(list: &mut Orientations) -> io::Result<()> {
    for table in tied() {
        list.tables.set(&table)?;
        for asked in [(0.0, 0), (0.5, 300), (1.0, 719)] {
            list.orient(asked)?;
        }
    }
    let (hue, near, far) = (500, on(500, 302), on(500, 400));
    // A dark level is left only when all light ones are gone through.
    list.tables.set(&flat(5, 1.0))?;
    mark(list, &[0, 1, 3, 4], &[hue], 60.0)?;
    mark(list, &[0, 4], &[far], 50.0)?;
    for by in [-1, 0, 1] {
        let v = float_step(50.0, by);
        mark(list, &[1, 3], &[near], v)?;
        let first = [0, word(50.0), 0, 4, far];
        let second = [0, word(v), 1, 3, near];
        list.must((0.0, hue), if by > 0 { &second } else { &first })?;
    }
    Ok(())
}

/// Writes calls with gaps at and beyond the ends, at the half-unit edges with the f32 on both
/// sides, and where the last pairs of 169 levels qualify.
fn gaps(list: &mut Orientations) -> io::Result<()> {
    list.tables.set(&flat(3, 50.0))?;
    for gap in BAD_GAPS.into_iter().chain(EDGES).chain([84.0, 83.99999]) {
        list.orient((gap, 10))?;
    }
    let mut falling = RISING;
    falling.reverse();
    for values in [RISING, falling, [50.0; 12]] {
        list.tables.set(&rows_of(&values))?;
        for half in 0..11 {
            for by in [-1, 0, 1] {
                let gap = float_step(0.5 * half as f32, by);
                list.orient((gap, 60 * half))?;
            }
        }
    }
    far_table(&mut list.tables)?;
    for gap in FAR {
        for by in [-1, 0, 1] {
            list.orient((float_step(gap, by), 719))?;
        }
    }
    Ok(())
}

/// Writes calls over the panel's own table: with every hue at gap 40, where the greatest chroma
/// over all is the one that a search for two hues finds, and with some hues at other gaps.
fn whole_panel(list: &mut Orientations) -> io::Result<()> {
    list.tables.panel(0, LEVELS)?;
    let mut found = vec![];
    for hue in 0..DIRECTIONS as u32 {
        found.extend(list.orient((40.0, hue))?.map(f32::to_bits));
    }
    let none = DIRECTIONS - found.len();
    assert!(none == PANEL_NONE, "none at {none} hues of the panel");
    let most = found.into_iter().max();
    assert!(most == Some(PANEL_MOST), "another greatest chroma");
    let search = job::search(2, 40.0, list.tables.table(), ROOM).expect("a search");
    let chroma = search.best.map(|(chroma, ..)| chroma.to_bits());
    assert!(most == chroma, "a search for two hues finds another");
    for hue in (0..DIRECTIONS as u32).step_by(45) {
        for gap in [0.0, 83.0] {
            list.orient((gap, hue))?;
        }
    }
    for hue in [272, 653] {
        let near = [-1, 1].map(|by| float_step(40.0, by));
        for gap in near.into_iter().chain([10.0, 25.25, 60.0, 84.0]) {
            list.orient((gap, hue))?;
        }
    }
    Ok(())
}

/// How many levels a random table has at most, and how many kinds of them there are.
const FEW: usize = 12;
const KINDS: usize = CHEAP + 2;
/// The kind in which some hues have their partners.
const PARTNERED: usize = CHEAP;

/// Sets a random table of this kind and so many levels, and gives hues at which to ask: one that
/// the lists of searches have too, one in which some hues have their partners, or one in which every
/// entry is one of a few neighbours.
fn random_rows(
    list: &mut Orientations,
    random: &mut Random,
    kind: usize,
    levels: usize,
) -> io::Result<Vec<u32>> {
    let any = random.below(DIRECTIONS) as u32;
    let hues = vec![any, random.pick(&HUES)];
    match kind {
        0..CHEAP => random_table(&mut list.tables, random, kind, levels)?,
        PARTNERED => partnered(list, random, &hues, levels)?,
        _ => peppered(list, random, levels)?,
    }
    Ok(hues)
}

/// Sets a table of one or two rows again and again in which every entry is one of four that are
/// neighbours or nearly so.
fn peppered(list: &mut Orientations, random: &mut Random, levels: usize) -> io::Result<()> {
    let any = random.between(30.0, 199.0);
    let v = random.pick(&[FLOOR, 50.0, 64.0, any]);
    let values = [v, random.near(v), random.near(v), float_step(v, 1)];
    let rows: Vec<Vec<f32>> = (0..levels.min(2))
        .map(|_| (0..DIRECTIONS).map(|_| random.pick(&values)).collect())
        .collect();
    list.tables.resize(levels * DIRECTIONS)?;
    for (i, row) in rows.iter().enumerate() {
        for (j, part) in row.chunks(ENTRIES_A_LINE).enumerate() {
            let at = i * DIRECTIONS + j * ENTRIES_A_LINE;
            list.tables.more(at, part)?;
        }
    }
    let others = (rows.len()..levels).map(|_| rows[random.below(rows.len())].clone());
    let others: Vec<_> = others.collect();
    list.tables.set(&[rows, others].concat().concat())
}

/// Sets a table of one small value but for these hues and a few places from 299 to 421 positions
/// on from each, of values that are neighbours or nearly so.
fn partnered(
    list: &mut Orientations,
    random: &mut Random,
    hues: &[u32],
    levels: usize,
) -> io::Result<()> {
    let any = random.between(35.0, 199.0);
    let v = random.pick(&[FLOOR, 50.0, any]);
    let small = random.pick(&[0.0, 1e-45, 20.0, BELOW]);
    let mut table = flat(levels, small);
    let ends = [299, 300, 301, 302, 418, 419, 420, 421];
    for hue in hues {
        let between = 303 + random.below(115) as u32;
        let by = [random.pick(&ends), between, random.pick(&ends)];
        for row in table.chunks_mut(DIRECTIONS) {
            row[*hue as usize] = random.near(v);
            for by in by {
                row[on(*hue, by) as usize] = random.near(v);
            }
        }
    }
    list.tables.set(&table)
}

/// Writes so many random calls over the table, about one in sixteen with a fault or more.
fn random_calls(
    list: &mut Orientations,
    random: &mut Random,
    hues: &[u32],
    some: usize,
) -> io::Result<()> {
    let levels = list.tables.table().len() / DIRECTIONS;
    for _ in 0..some {
        let (any, one) = (random.below(DIRECTIONS) as u32, random.pick(hues));
        let hue = random.pick(&[any, one]);
        let gap = match random.below(24) {
            0 => random.between(0.0, 84.0),
            _ => random_gap(random, levels),
        };
        let set = match random.below(64) {
            0 => random.below(16),
            1..=3 => 1 << random.below(4),
            _ => 0,
        };
        faulty(list, random, (gap, hue), set)?;
    }
    Ok(())
}
