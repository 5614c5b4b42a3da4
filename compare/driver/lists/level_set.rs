//! The level set list, for `level_set_cases`: bests over sets of levels, what the published
//! `best_for_level_set` gives.
//!
//! The fixed list holds calls that follow from the rule without working out a table, and one of the
//! sets that the published report goes through, the levels 20, 40, 120 and 140 of the panel, for four
//! hues, which must come out as they stand here, else the driver stops; every set of the six refusals,
//! of which the first in the order 1, 6, 8, 18, 11, 7 must be given, else it stops; hue counts, work
//! buffers, lists of levels, indices, tables and entries at and beyond the ends, among them indices
//! that are taken where their high bits get lost, and refused entries beside the row that is named;
//! values that are subnormal or lie at or beside 64 and 128, in rows of one value and alone among
//! zeros; zeros but for as many hues as are asked for, as near to one another as may be, and with one a
//! place nearer; random tables with 1 to 9 levels; and the panel's own table with every hue count over
//! that set, and with 1 to 8 levels rising, falling and repeated.
//!
//! A random list has 32 calls on the same table, of which the levels go from 1 to 9 in turn; the tables
//! are those of the search list, tables in bands of zeros and subnormal numbers, of neighbours, or of
//! 200 and numbers so small that 30 halvings matter, and tables of zeros or one low value but for k
//! hues as near as may be, of which one may have moved by a place. A list of levels has 1 to 8 indices,
//! some of them again and again; about one call in 16 has a fault or more, and each of the others
//! stands there also with its list turned round, where that is another, and written twice, where that
//! makes at most 8 indices, which must give the same, else the driver stops. In both lists it stops too
//! unless an accepted call says none just where no hue has a value above 0, its hues lie far enough
//! apart and have the chroma it says, and no hues so far apart have a common value more than 2^-15
//! above it, by exact comparison and the published `feasible`.

use crate::files::Files;
use crate::lists::placement::{EDGES, REFUSED};
use crate::lists::rooms::{edges, Rooms};
use crate::lists::search::{
    banded, flat, random_table, rows_of, BAD_COUNTS, CHEAP, KINDS, LENGTHS,
};
use crate::models::job::ROOM;
use crate::models::level_set::{LevelSets, MOST, NAMED_A_LINE};
use crate::models::table::STORED;
use crate::placing;
use crate::random::Random;
use crate::standins::{DIRECTIONS, LEVELS};
use crate::words::{float_step, word};
use std::io;

/// The numbers of the faults that a call can have, in the order in which they are found: the hue
/// count, the table's length, the work buffer, the list's length, an index, an entry.
const FAULTS: [u32; 6] = [1, 6, 8, 18, 11, 7];
/// Indices that no table has, some of which are taken where their high bits get lost.
const BAD_INDICES: [u32; 7] = [169, 200, 256, 65_536, 65_537, 1 << 31, u32::MAX];
/// Four levels of the panel that the published report goes through among others.
const FOUR: [u32; 4] = [20, 40, 120, 140];
/// How many levels a random table has at most.
const FEW: usize = 9;
/// How many calls of a random list are over one table.
const CALLS: usize = 32;
/// A work buffer that is one too short.
const SHORT: usize = ROOM - 1;

/// Writes the fixed list.
pub fn fixed(files: &mut Files) -> io::Result<()> {
    let mut list = LevelSets::begin(files, Rooms::InTurn(0))?;
    let mut random = Random(19);
    by_hand(&mut list)?;
    by_hand_refused(&mut list)?;
    of_each_kind(&mut list)?;
    refusals(&mut list, &mut random)?;
    ends(&mut list)?;
    indices(&mut list)?;
    lengths(&mut list)?;
    entries(&mut list)?;
    values(&mut list)?;
    tight(&mut list)?;
    for levels in 1..=FEW {
        for kind in [levels % CHEAP, KINDS + levels % OTHERS] {
            let k = random_rows(&mut list, &mut random, kind, levels)?;
            random_calls(&mut list, &mut random, k, 2)?;
        }
    }
    whole_panel(&mut list)?;
    list.end()?;
    let own = ["levels", "levels 1", "levels 1 0 0", "set 1 961"];
    list.tables.damaged(&own, ("set", &[1, 2]))
}

/// Writes a random list of this many calls, of which the tables have 1 to 9 levels in turn; each
/// that is accepted stands there again with its list in other orders.
pub fn many(files: &mut Files, seed: u64, count: usize) -> io::Result<()> {
    let mut list = LevelSets::begin(files, Rooms::of_seed(seed))?;
    let mut random = Random(seed);
    let mut left = count;
    while left > 0 {
        let turn = (count - left) / CALLS;
        let kind = random.below(KINDS + OTHERS);
        let k = random_rows(&mut list, &mut random, kind, turn % FEW + 1)?;
        let some = left.min(CALLS);
        random_calls(&mut list, &mut random, k, some)?;
        left -= some;
    }
    list.end()
}

/// Writes a call with each of these lists of levels; all must give the same.
fn alike(list: &mut LevelSets, lists: &[Vec<u32>], k: u32) -> io::Result<()> {
    let mut given = vec![];
    for levels in lists {
        list.name(levels)?;
        given.push(list.set(k)?);
    }
    let one = given.windows(2).all(|two| two[0] == two[1]);
    assert!(one, "another order gives another answer");
    Ok(())
}

/// Writes a call with a list of levels as it is, turned round, and twice where that is taken.
fn in_orders(list: &mut LevelSets, levels: &[u32], k: u32) -> io::Result<()> {
    let turned = levels.iter().rev().copied().collect();
    let mut lists = vec![levels.to_vec(), turned];
    if 2 * levels.len() <= MOST {
        lists.push(levels.repeat(2));
    }
    lists.dedup();
    alike(list, &lists, k)
}

/// Writes calls whose answers follow from the rule without working out a table.
fn by_hand(list: &mut LevelSets) -> io::Result<()> {
    list.tables.set(&flat(1, 0.0))?;
    list.must(1, &[18, 0])?;
    list.name(&[0])?;
    list.must(1, &[0, 0])?;
    list.tables.more(333, &[50.0])?;
    list.must(2, &[0, 301, 0, 0, 301])?;
    list.tables.more(333, &[f32::from_bits(1)])?;
    list.must(1, &[0, 720, 0, 0])?;
    // Thirty halvings of 200 end above 2^-24 and below 2^-20.
    for (power, bits) in [(-20, 0x357a_0000), (-24, 0)] {
        list.tables.set(&flat(1, 2f32.powi(power)))?;
        list.tables.more(333, &[200.0])?;
        list.must(2, &[0, 301, bits, 0, 301])?;
    }
    list.tables.set(&flat(1, f32::from_bits(0x4300_0001)))?;
    list.must(1, &[0, 720, 0x4300_0000, 0])?;
    list.name(&[0; 9])?;
    list.must(1, &[18, 0])?;
    by_hand_halves(list)?;
    random_table(&mut list.tables, &mut Random(38), 1, 3)?;
    let lists = [vec![0, 1, 2], vec![2, 1, 0, 0, 1, 1, 2, 2]];
    for k in [1, 4, 16] {
        alike(list, &lists, k)?;
    }
    Ok(())
}

/// Writes calls over two levels of which each has values at one half of the hues, and then one at a
/// hue of the other half.
fn by_hand_halves(list: &mut LevelSets) -> io::Result<()> {
    list.tables.set(&flat(2, 0.0))?;
    list.tables.same(0, 360, 50.0)?;
    list.tables.same(DIRECTIONS + 360, 360, 60.0)?;
    for (levels, expected) in [
        (&[0][..], &[0, 720, word(50.0), 0][..]),
        (&[1], &[0, 720, word(60.0), 360]),
        (&[0, 1], &[0, 0]),
    ] {
        list.name(levels)?;
        list.must(1, expected)?;
    }
    list.must(16, &[0, 0])?;
    list.tables.more(DIRECTIONS + 359, &[70.0])?;
    list.must(1, &[0, 720, word(50.0), 359])?;
    list.must(2, &[0, 301, 0, 0, 301])
}

/// Writes calls with a fault or two, of which the one that is looked for first is given.
fn by_hand_refused(list: &mut LevelSets) -> io::Result<()> {
    list.tables.set(&rows_of(&[50.0, f32::NAN]))?;
    for (levels, expected) in [
        (&[0][..], &[0, 720, word(50.0), 0][..]),
        (&[1], &[7, 0]),
        (&[0, 0, 0, 0, 0, 0, 0, 1], &[7, 0]),
        (&[2], &[11, 0]),
        (&[1, 2], &[11, 0]),
    ] {
        list.name(levels)?;
        list.must(1, expected)?;
    }
    list.name(&[])?;
    list.must_refuse((1, SHORT), 8)?;
    list.must(1, &[18, 0])?;
    list.name(&[0, 0, 0, 0, 200, 0, 0, 0, 0])?;
    list.must(1, &[18, 0])?;
    list.tables.set(&flat(3, 50.0))?;
    list.tables.more(0, &[f32::NAN])?;
    list.name(&[0, 3])?;
    list.must(1, &[11, 0])?;
    list.tables.resize(3 * DIRECTIONS + 1)?;
    list.must_refuse((1, SHORT), 6)?;
    list.must_refuse((17, SHORT), 1)
}

/// Writes one call of each kind: found, none and refused. The search list has the step of a job over
/// this table, whose turn among the rooms is left out here.
fn of_each_kind(list: &mut LevelSets) -> io::Result<()> {
    list.tables.set(&rows_of(&[50.0, 60.0, 50.0, 0.0]))?;
    for levels in [[0, 1], [1, 3], [0, 4]] {
        list.name(&levels)?;
        list.set(3)?;
    }
    list.rooms.skip();
    Ok(())
}

/// Writes calls with every set of the six faults.
fn refusals(list: &mut LevelSets, random: &mut Random) -> io::Result<()> {
    list.tables.set(&flat(4, 50.0))?;
    for set in 0..1 << FAULTS.len() {
        faulty(list, random, &[2, 0, 3], 2, set)?;
    }
    Ok(())
}

/// Writes a call with a set of faults, by their places in the order: the first must be given. A row
/// that has a refused entry is named. Table and length are afterwards as before.
fn faulty(
    list: &mut LevelSets,
    random: &mut Random,
    levels: &[u32],
    k: u32,
    set: usize,
) -> io::Result<()> {
    let has = |place: usize| set & 1 << place != 0;
    let length = list.tables.table().len();
    let (row, any) = (random.pick(levels) as usize, random.below(DIRECTIONS));
    let at = row * DIRECTIONS + random.pick(&[0, DIRECTIONS - 1, any]);
    let kept = list.tables.table()[at];
    let named = named_wrongly(random, levels, (length / DIRECTIONS) as u32, set);
    list.name(&named)?;
    if has(1) {
        let most = LEVELS * DIRECTIONS;
        let lengths = [0, 1, length - 1, length + 1, length + 719, most + 1, STORED];
        list.tables.resize(random.pick(&lengths))?;
    }
    if has(5) {
        list.tables.more(at, &[random.pick(&REFUSED)])?;
    }
    let (count, any) = (random.pick(&BAD_COUNTS), random.below(ROOM));
    let short = random.pick(&[0, SHORT, any]);
    let k = if has(0) { count } else { k };
    let number = if has(2) {
        list.set_in((k, short))?[0]
    } else {
        list.set(k)?[0]
    };
    let first = FAULTS.get(set.trailing_zeros() as usize);
    assert!(number == *first.unwrap_or(&0), "another fault comes first");
    if has(5) {
        list.tables.more(at, &[kept])?;
    }
    if has(1) {
        list.tables.resize(length)?;
    }
    Ok(())
}

/// A list of levels with the faults that a set has of it, over a table of so many levels: too many
/// indices or, where neither an index nor an entry is wrong, none; and one more that is too great, or
/// one in the place of another where one more would be too many.
fn named_wrongly(random: &mut Random, levels: &[u32], rows: u32, set: usize) -> Vec<u32> {
    let has = |place: usize| set & 1 << place != 0;
    let mut named = levels.to_vec();
    if has(3) && !has(4) && !has(5) && random.below(2) == 0 {
        named.clear();
    } else if has(3) {
        let count = MOST + 1 + random.below(NAMED_A_LINE - MOST - 1);
        named = levels.iter().copied().cycle().take(count).collect();
    }
    if has(4) {
        let place = random.below(named.len().min(MOST));
        let bad = random.pick(&BAD_INDICES);
        let bad = random.pick(&[rows, LEVELS as u32 - 1, bad]);
        if named.len() == MOST {
            named[place] = bad;
        } else {
            named.insert(place, bad);
        }
    }
    named
}

/// Writes calls with hue counts, work buffers and lists of levels at and beyond the ends.
fn ends(list: &mut LevelSets) -> io::Result<()> {
    list.tables.set(&rows_of(&[60.0, 50.0]))?;
    list.name(&[0, 1])?;
    for k in (0..=17).chain(BAD_COUNTS) {
        list.set(k)?;
    }
    for room in edges(ROOM).into_iter().chain([2400]) {
        list.set_in((2, room))?;
    }
    for count in (0..=MOST + 2).chain([16, NAMED_A_LINE]) {
        list.name(&vec![count as u32 % 2; count])?;
        list.set(2)?;
    }
    Ok(())
}

/// Writes calls with an index at and beyond the ends, alone, first and last of several.
fn indices(list: &mut LevelSets) -> io::Result<()> {
    list.tables.set(&rows_of(&[50.0, 60.0, 70.0]))?;
    for index in [2, 3, 4, 168].into_iter().chain(BAD_INDICES) {
        for levels in [&[index][..], &[index, 1, 0], &[0, 1, 0, 1, 0, 1, 0, index]] {
            list.name(levels)?;
            list.set(2)?;
        }
    }
    Ok(())
}

/// Writes calls over tables of many lengths, with the first level and the last, and with one more.
fn lengths(list: &mut LevelSets) -> io::Result<()> {
    list.tables.resize(STORED)?;
    list.tables.same(0, STORED, 50.0)?;
    for n in LENGTHS {
        list.tables.resize(n)?;
        let rows = (n / DIRECTIONS) as u32;
        list.name(&[0, rows.saturating_sub(1)])?;
        list.set(2)?;
        list.name(&[0, rows])?;
        list.set(2)?;
    }
    Ok(())
}

/// Writes calls over the middle one of three levels with an entry that is refused, or taken at the
/// ends, at the ends of that row and beside it.
fn entries(list: &mut LevelSets) -> io::Result<()> {
    list.tables.set(&flat(3, 50.0))?;
    list.name(&[1])?;
    let places = [720, 719, 1439, 1440, 1000, 0];
    for (i, v) in REFUSED.into_iter().chain(EDGES).enumerate() {
        for j in 0..2 {
            let at = places[(2 * i + j) % places.len()];
            list.tables.more(at, &[v])?;
            list.set(1)?;
            list.tables.more(at, &[50.0])?;
        }
    }
    Ok(())
}

/// Writes calls over rows of one value, over two that are neighbours, and over rows of zeros but
/// for one value: subnormal ones, and some where the last place doubles, with the f32 on both sides.
fn values(list: &mut LevelSets) -> io::Result<()> {
    let near = [64.0, 128.0, f32::MIN_POSITIVE];
    let near = near.map(|v| [-1, 0, 1].map(|by| float_step(v, by)));
    for v in near.concat().into_iter().chain(EDGES) {
        let other = if v == 0.0 { 1.0 } else { float_step(v, -1) };
        list.tables.set(&rows_of(&[v, other]))?;
        for (levels, k) in [(&[0][..], 1), (&[1, 0], 16)] {
            list.name(levels)?;
            list.set(k)?;
        }
    }
    list.tables.set(&flat(1, 0.0))?;
    list.name(&[0])?;
    for (i, v) in EDGES.into_iter().chain([35.0, 64.0, 128.0]).enumerate() {
        let at = [0, 719, 360][i % 3];
        list.tables.more(at, &[v])?;
        for k in [1, 2] {
            list.set(k)?;
        }
        list.tables.more(at, &[0.0])?;
    }
    Ok(())
}

/// Places for k hues from one on, each as near to the last as may be.
fn nearest(k: u32, first: usize) -> Vec<usize> {
    let step = placing::step(k as usize);
    let hues = (0..k as usize).map(|i| (first + i * step) % DIRECTIONS);
    hues.collect()
}

/// Writes calls over zeros but for as many hues as are asked for, as near to one another as may be,
/// and then with one of them a place nearer.
fn tight(list: &mut LevelSets) -> io::Result<()> {
    for (i, k) in [2, 5, 16].into_iter().enumerate() {
        let hues = nearest(k, 150 * i);
        let mut table = flat(2, 0.0);
        for (j, hue) in hues.iter().enumerate() {
            table[*hue] = 50.0 + j as f32;
            table[DIRECTIONS + *hue] = 60.0 - j as f32;
        }
        list.tables.set(&table)?;
        in_orders(list, &[0, 1], k)?;
        let (last, nearer) = (hues[1], (hues[1] + DIRECTIONS - 1) % DIRECTIONS);
        for row in [0, DIRECTIONS] {
            list.tables.more(row + last, &[0.0])?;
            list.tables.more(row + nearer, &[50.0])?;
        }
        in_orders(list, &[0, 1], k)?;
    }
    Ok(())
}

/// Writes calls over the panel's own table: four levels of the published report with every hue
/// count, and 1 to 8 levels in rising and in falling order and with repeats.
fn whole_panel(list: &mut LevelSets) -> io::Result<()> {
    list.tables.panel(0, LEVELS)?;
    list.name(&FOUR)?;
    list.must(4, &[0, 151, word(28.247828), 150, 301, 568, 719])?;
    for k in 1..=16 {
        list.set(k)?;
    }
    let spread = [3, 20, 40, 77, 78, 120, 140, 165];
    for n in 1..=MOST {
        let rising = spread[MOST - n..].to_vec();
        let falling = rising.iter().rev().copied().collect();
        let first = rising[..n.div_ceil(2)].to_vec();
        let again = first.iter().copied().cycle().take(n).collect();
        let k = 2 * n as u32;
        alike(list, &[rising, falling], k)?;
        alike(list, &[first, again], k - 1)?;
    }
    for level in [0, LEVELS as u32 - 1] {
        list.name(&[level, 84])?;
        list.set(8)?;
    }
    Ok(())
}

/// How many kinds of random tables there are beside those of the lists of searches, and how many rows
/// of one are different at most.
const OTHERS: usize = 4;
const DIFFERENT: usize = 3;

/// Sets a random table of this kind and so many levels, and gives a hue count to ask for: one that
/// the lists of searches have too, or one of rows in bands of a few values, or one of low values but
/// for hues that are as near as may be or nearly so.
fn random_rows(
    list: &mut LevelSets,
    random: &mut Random,
    kind: usize,
    levels: usize,
) -> io::Result<u32> {
    let k = random.below(16) as u32 + 1;
    if kind < KINDS {
        random_table(&mut list.tables, random, kind, levels)?;
        return Ok(k);
    }
    let any = random.between(1.0, 199.0);
    let v = random.pick(&[64.0, 128.0, any]);
    let tiny = random.pick(&[1e-45, 1e-39, f32::MIN_POSITIVE]);
    let small = 2f32.powi(-18 - random.below(8) as i32);
    let values = match kind - KINDS {
        0 => [0.0, 1e-45, tiny, float_step(tiny, 1), 3e-45],
        1 => [v, float_step(v, 1), random.near(v), random.near(v), v],
        2 => [200.0, small, random.near(small), 0.0, 1.5 * small],
        _ => return hidden(list, random, k, levels),
    };
    let rows: Vec<_> = (0..DIFFERENT).map(|_| banded(random, &values)).collect();
    set_some(list, random, &rows, levels)?;
    Ok(k)
}

/// Sets the table to so many levels, each of which has one of these rows.
fn set_some(
    list: &mut LevelSets,
    random: &mut Random,
    rows: &[Vec<f32>],
    levels: usize,
) -> io::Result<()> {
    let some = (0..levels).map(|_| rows[random.below(rows.len())].clone());
    list.tables.set(&some.collect::<Vec<_>>().concat())
}

/// Sets a table of zeros or of one low value but for k hues, each as near to the last as may be but
/// that one may have moved by a place, and a few others.
fn hidden(list: &mut LevelSets, random: &mut Random, k: u32, levels: usize) -> io::Result<u32> {
    let any = random.between(1.0, 199.0);
    let v = random.pick(&[1e-39, 0.001, 64.0, any]);
    let mut hues = nearest(k, random.below(DIRECTIONS));
    let moved = random.below(hues.len());
    hues[moved] = (hues[moved] + random.pick(&[0, 0, 1, DIRECTIONS - 1])) % DIRECTIONS;
    hues.extend((0..random.below(4)).map(|_| random.below(DIRECTIONS)));
    let low = random.pick(&[0.0, 0.0, 1e-45, 0.5 * v]);
    let mut rows = vec![vec![low; DIRECTIONS]; DIFFERENT];
    for row in &mut rows {
        for hue in &hues {
            row[*hue] = random.near(v);
        }
    }
    set_some(list, random, &rows, levels)?;
    Ok(k)
}

/// Writes so many random calls over the table, half of them with this hue count and about one in
/// sixteen with a fault or more, and each of the others in other orders too.
fn random_calls(
    list: &mut LevelSets,
    random: &mut Random,
    one: u32,
    some: usize,
) -> io::Result<()> {
    let rows = list.tables.table().len() / DIRECTIONS;
    for _ in 0..some {
        let any = random.below(16) as u32 + 1;
        let k = random.pick(&[one, any]);
        let count = random.below(MOST) + 1;
        let levels: Vec<u32> = (0..count).map(|_| random.below(rows) as u32).collect();
        match random.below(64) {
            0 => {
                let set = random.below((1 << FAULTS.len()) - 1) + 1;
                faulty(list, random, &levels, k, set)?;
            }
            1..=3 => {
                let set = 1 << random.below(FAULTS.len());
                faulty(list, random, &levels, k, set)?;
            }
            _ => in_orders(list, &levels, k)?,
        }
    }
    Ok(())
}
