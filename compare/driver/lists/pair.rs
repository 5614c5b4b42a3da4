//! The pair list, for `pair_cases`: two rows, and the best over them.
//!
//! The fixed list holds P1 and P2 of document 01; every set of the refusals, of which the lowest number
//! is given; entries, floors and arguments at their ends; values around 64 and 128, where the last
//! place of an f32 doubles; subnormal values; values far below the largest with a floor below 35, where
//! all 30 rounds matter; and rows of 35 but for two hues opposite to each other or nearly so, whose
//! tightest gap must come out as it stands here, else the driver stops. A call that does not choose its
//! work buffer for its own sake has the rooms that `rooms` gives it.
//!
//! A random list has 32 calls on the same two rows, of which a fourth has 720 entries and the others
//! have the lengths 1 to 720 in turn. The rows are smooth, jagged, in runs, of few values, a few f32
//! around one number, small with a great entry now and then, mostly below 35, or hide a placement.
//! Floors are 35, 0, at or near a value or the largest, or any; many of the spacings are the step for k
//! where the rows are long enough for it; about one call in 32 has an entry that is refused or a row of
//! another length.

use crate::files::Files;
use crate::lists::placement::{hidden, nudge, runs, tight, COUNTS, EDGES, REFUSED};
use crate::lists::rooms::{at_random, edges};
use crate::models::pair::{largest, lesser, Pairs};
use crate::models::placement::{Call, STORED};
use crate::placing;
use crate::random::Random;
use crate::words::float_step;
use std::io;

/// The least chroma that a palette is asked for.
const FLOOR: f32 = 35.0;
/// The entries of a short row with its greatest in two places.
const SHORT: [f32; 8] = [50.0, 10.0, 45.0, 36.0, 60.0, 35.0, 41.0, 60.0];

/// Writes the fixed list.
pub fn fixed(files: &mut Files) -> io::Result<()> {
    let mut list = Pairs::begin(files)?;
    let mut random = Random(11);
    marked(&mut list)?;
    thirty(&mut list)?;
    subnormal(&mut list)?;
    refusals(&mut list)?;
    arguments(&mut list)?;
    entries(&mut list)?;
    lengths(&mut list)?;
    floors(&mut list)?;
    doublings(&mut list)?;
    whole(&mut list, &mut random)?;
    for n in [3, 9, 16, 22, 23, 44, 45, 100, 180, 360, 500, 719, 720] {
        random_pair(&mut list, &mut random, (n, 24), Pairs::in_turn)?;
    }
    gaps(&mut list)?;
    list.end()?;
    for line in [
        "row 2 0",
        "row 0 321",
        "more 2 0 0",
        "more 0 2d0 0",
        "same 2 0 0 0",
        "same 0 2d0 1 0",
        "best 1 1 0 961",
    ] {
        files.malformed(line)?;
    }
    files.damaged("best", &[2, 3, 0, 8])
}

/// Writes a random list of this many pairs, 32 on the same rows; a fourth of the rows has 720
/// entries, and the others have every length in turn.
pub fn many(files: &mut Files, seed: u64, count: usize) -> io::Result<()> {
    let mut list = Pairs::begin(files)?;
    let mut random = Random(seed);
    let mut left = count;
    while left > 0 {
        let turn = (count - left) / 32;
        let n = match turn % 4 {
            3 => 720,
            _ => (turn - turn / 4) % 720 + 1,
        };
        let some = left.min(32);
        random_pair(&mut list, &mut random, (n, some), Pairs::best)?;
        left -= some;
    }
    list.end()
}

/// Writes document 01's marked cases.
fn marked(list: &mut Pairs) -> io::Result<()> {
    for v in [50.0, 50.0 + 2f32.powi(-18)] {
        list.both([&[v; 720]; 2])?;
        let chroma = list.from(FLOOR, 2, 301)?;
        assert!(chroma == Some(50.0), "a marked case: {chroma:?}");
    }
    Ok(())
}

/// Writes pairs whose last rounds matter: the largest value lies far above what is found.
fn thirty(list: &mut Pairs) -> io::Result<()> {
    for high in [200.0, 150.0, 35.0] {
        let mut row = [1.0; 720];
        row[360] = high;
        list.both([&row; 2])?;
        for floor in [0.0, 1e-45, 0.25, float_step(1.0, -1), 1.0] {
            list.from(floor, 2, 301)?;
        }
        list.more(1, 360, &[1e-3])?;
        list.more(0, 10, &[high])?;
        list.from(0.0, 2, 301)?;
    }
    for low in [0.0, 1e-45, 1e-39, 1e-8, 1e-5, 1e-3, 0.01, 0.3, 3.0, 34.9] {
        list.both([&[low, 200.0, low, low], &[200.0, 199.0, low, 200.0]])?;
        for floor in [0.0, 0.1 * low, 0.3 * low, 0.7 * low] {
            for (k, step) in [(1, 4), (2, 2), (4, 1)] {
                list.from(floor, k, step)?;
            }
        }
    }
    Ok(())
}

/// Writes pairs of values at and below the least normal number.
fn subnormal(list: &mut Pairs) -> io::Result<()> {
    let least = f32::MIN_POSITIVE;
    let a = [1e-45, 3e-45, 0.0, 4e-45, 7e-45, 1e-45];
    let b = [least, 3e-45, 1e-45, float_step(least, -1), 6e-45, least];
    for rows in [[&a, &a], [&a, &b], [&b, &b]] {
        list.both(rows.map(|row| &row[..]))?;
        for floor in [0.0, 1e-45, 3e-45] {
            for (k, step) in [(1, 6), (2, 3), (3, 2)] {
                list.from(floor, k, step)?;
            }
        }
    }
    Ok(())
}

/// Writes pairs with every set of faults that a call can have, of which the lowest is given.
fn refusals(list: &mut Pairs) -> io::Result<()> {
    for which in [0, 1] {
        list.set(which, &[40.0; STORED])?;
    }
    for lengths in [[8, 8], [8, 7], [7, 8], [0, 0], [720, 721], [721, 721]] {
        list.resize(0, lengths[0])?;
        list.resize(1, lengths[1])?;
        for bad in 0..4 {
            last_entries(list, [bad & 1 != 0, bad & 2 != 0])?;
            faults(list, bad)?;
        }
        last_entries(list, [false; 2])?;
    }
    Ok(())
}

/// Sets the last entry of each row to one that is refused or to 40, if there is any.
fn last_entries(list: &mut Pairs, bad: [bool; 2]) -> io::Result<()> {
    for (which, bad) in bad.into_iter().enumerate() {
        if let Some(last) = list.rows()[which].len().checked_sub(1) {
            list.more(which, last, &[if bad { -0.0 } else { 40.0 }])?;
        }
    }
    Ok(())
}

/// Writes pairs on these rows with every set of the faults that do not lie in the rows.
fn faults(list: &mut Pairs, kind: usize) -> io::Result<()> {
    let n = list.rows()[0].len();
    let length = n as u32;
    for set in 0..16 {
        let mut call = Call {
            k: 2,
            step: 3,
            c: FLOOR,
            room: n,
        };
        let one = |values: [u32; 4]| values[(set + kind) % 4];
        if set & 1 != 0 {
            call.k = one([0, 17, u32::MAX, 257]);
        }
        if set & 2 != 0 {
            call.c = REFUSED[(set + 2 * kind) % REFUSED.len()];
        }
        if set & 4 != 0 {
            call.step = one([0, length + 1, u32::MAX, 65536 + 3]);
        }
        if set & 8 != 0 {
            call.room = n.saturating_sub(1 + set % 2 * 7);
        }
        list.in_turn(call)?;
    }
    Ok(())
}

/// Writes pairs with one argument at or beyond its ends.
fn arguments(list: &mut Pairs) -> io::Result<()> {
    list.both([&SHORT; 2])?;
    for k in COUNTS {
        list.from(FLOOR, k, 2)?;
    }
    for step in [0, 1, 4, 8, 9, 65537, u32::MAX] {
        list.from(FLOOR, 2, step)?;
    }
    for floor in REFUSED.into_iter().chain(EDGES) {
        list.from(floor, 2, 3)?;
    }
    for room in edges(SHORT.len()).into_iter().chain([2400]) {
        list.best(Call {
            k: 2,
            step: 3,
            c: FLOOR,
            room,
        })?;
    }
    Ok(())
}

/// Writes pairs with one other entry in one of the rows: the first, a middle and the last one.
fn entries(list: &mut Pairs) -> io::Result<()> {
    let near = [-1, 0, 1].map(|by| float_step(40.0, by));
    let odd = [&REFUSED[..], &EDGES, &near].concat();
    for (n, k, step) in [(6, 2, 3), (720, 16, 45)] {
        list.both([&vec![40.0; n]; 2])?;
        for (i, v) in odd.iter().enumerate() {
            let (which, place) = (i % 2, [0, n / 2, n - 1][i % 3]);
            for (which, place) in [(which, place), (1 - which, n - 1 - place)] {
                list.more(which, place, &[*v])?;
                list.from(FLOOR, k, step)?;
                list.more(which, place, &[40.0])?;
            }
        }
        list.from(FLOOR, k, step)?;
    }
    Ok(())
}

/// Writes pairs of the shortest and the longest rows, for every hue count, and with work buffers at
/// and beyond the ends.
fn lengths(list: &mut Pairs) -> io::Result<()> {
    for n in [1, 2, 15, 16, 719, 720] {
        list.both([&vec![60.0; n], &vec![61.5; n]])?;
        for k in 1..=16 {
            let step = (n as u32 / k).max(1);
            list.from(FLOOR, k, step)?;
        }
        list.from(FLOOR, 1, n as u32)?;
        list.from(0.0, 2, n as u32)?;
        for room in edges(n) {
            list.best(Call {
                k: 1,
                step: 1,
                c: FLOOR,
                room,
            })?;
        }
    }
    Ok(())
}

/// Writes pairs from floors at, below and above the values, and from 35 to 200 and below.
fn floors(list: &mut Pairs) -> io::Result<()> {
    let other = [60.0, 200.0, 45.0, 35.5, 60.0, 200.0, 40.0, 60.0];
    let flat = [41.0; 8];
    let low = SHORT.map(|v| float_step(v.min(FLOOR), -1));
    let high = SHORT.map(|v| if v < 50.0 { 200.0 } else { v });
    for rows in [
        [&SHORT, &other],
        [&flat, &high],
        [&low, &SHORT],
        [&high, &high],
    ] {
        list.both(rows.map(|row| &row[..]))?;
        let m = lesser(list.rows());
        let mut floors = vec![0.0, 10.0, 34.999996, 36.0, 100.0, 199.99998, 200.0];
        for v in m.into_iter().chain([FLOOR]) {
            floors.extend([-1, 0, 1].map(|by| float_step(v, by)));
        }
        floors.sort_by(f32::total_cmp);
        floors.dedup();
        for floor in floors {
            for (k, step) in [(1, 8), (2, 3), (3, 2)] {
                list.from(floor.min(200.0), k, step)?;
            }
        }
    }
    Ok(())
}

/// Writes pairs whose values lie around numbers where the last place of an f32 doubles.
fn doublings(list: &mut Pairs) -> io::Result<()> {
    for v in [64.0, 128.0] {
        for by in -2..=2 {
            let top = float_step(v, by);
            let below = |by: i32| float_step(top, -by);
            let a = [top, below(1), top, below(2), 20.0, below(3)];
            let b = [200.0, top, below(1), 200.0, top, below(3)];
            list.both([&a, &b])?;
            for floor in [0.0, FLOOR, v / 2.0, below(5), below(1), top] {
                for (k, step) in [(1, 6), (2, 2), (3, 2)] {
                    list.from(floor, k, step)?;
                }
            }
        }
    }
    Ok(())
}

/// Writes pairs of 720 entries with the step for every hue count.
fn whole(list: &mut Pairs, random: &mut Random) -> io::Result<()> {
    for kind in 0..KINDS {
        let rows = two(random, kind, 720);
        list.both([&rows[0], &rows[1]])?;
        let top = largest(&lesser(list.rows()));
        for k in 1..=16 {
            let step = placing::step(k as usize) as u32;
            for floor in [FLOOR, 0.0, 0.75 * top] {
                list.from(floor, k, step)?;
            }
        }
    }
    Ok(())
}

/// Writes pairs whose tightest gap follows from the rule: two hues stand out opposite to each other or
/// nearly so, where a search from the floor alone would take nearer ones; and one hue alone, whose gap
/// is the whole ring.
fn gaps(list: &mut Pairs) -> io::Result<()> {
    for (hues, gap) in [([100, 460], 360), ([100, 461], 359), ([99, 460], 359)] {
        let mut row = [FLOOR; 720];
        hues.iter().for_each(|hue| row[*hue as usize] = 60.0);
        list.both([&row; 2])?;
        list.must((FLOOR, 2, 301), gap, &hues)?;
        list.must((FLOOR, 1, 601), 720, &hues[..1])?;
    }
    Ok(())
}

/// Entries on straight lines between a few random ones, as a panel has them.
fn smooth(random: &mut Random, n: usize) -> Vec<f32> {
    let width = random.pick(&[7, 30, 90]);
    let knots = n.div_ceil(width).max(1);
    let values: Vec<f32> = (0..knots).map(|_| random.between(20.0, 130.0)).collect();
    let entry = |i: usize| {
        let (from, part) = (i / width, (i % width) as f32 / width as f32);
        let (a, b) = (values[from], values[(from + 1) % knots]);
        a + (b - a) * part
    };
    (0..n).map(entry).collect()
}

/// Entries that are all among a few values.
fn few(random: &mut Random, n: usize) -> Vec<f32> {
    let values: Vec<f32> = (0..random.below(4) + 1)
        .map(|_| match random.below(3) {
            0 => random.pick(&[0.0, FLOOR, 50.0, 64.0, 128.0, 200.0]),
            _ => random.between(20.0, 200.0),
        })
        .collect();
    (0..n).map(|_| random.pick(&values)).collect()
}

/// Entries a few steps of an f32 around one number.
fn close(random: &mut Random, n: usize) -> Vec<f32> {
    let some = random.between(1.0, 200.0);
    let v = random.pick(&[FLOOR, 64.0, 128.0, 200.0, 100.0, some]);
    (0..n).map(|_| random.near(v).min(200.0)).collect()
}

/// Small entries with a great one now and then, for which 30 rounds come to no end.
fn spiked(random: &mut Random, n: usize) -> Vec<f32> {
    let small = random.pick(&[1e-6, 1e-4, 0.01, 0.1, 1.0]);
    let entry = |random: &mut Random| match random.below(40) {
        0 => random.between(100.0, 200.0),
        _ => random.between(0.5, 1.0) * small,
    };
    (0..n).map(|_| entry(random)).collect()
}

/// How many kinds of random rows there are.
const KINDS: usize = 7;

/// A random row of this kind and length: smooth, jagged, in runs, of few values, of values
/// close to each other, of small and great ones, or mostly below the floor.
fn row(random: &mut Random, kind: usize, n: usize) -> Vec<f32> {
    match kind {
        0 => smooth(random, n),
        1 => (0..n).map(|_| random.between(0.0, 200.0)).collect(),
        2 => runs(random, n),
        3 => few(random, n),
        4 => close(random, n),
        5 => spiked(random, n),
        _ => (0..n).map(|_| random.between(0.0, 35.5)).collect(),
    }
}

/// Two rows whose lesser values are these.
fn split(random: &mut Random, values: &[f32]) -> [Vec<f32>; 2] {
    let mut rows = [values.to_vec(), values.to_vec()];
    for (i, v) in values.iter().enumerate() {
        rows[random.below(2)][i] = match random.below(3) {
            0 => *v,
            1 => float_step(*v, 1).min(200.0),
            _ => v + random.between(0.0, 1.0) * (200.0 - v),
        };
    }
    rows
}

/// Two random rows of this kind and length.
fn two(random: &mut Random, kind: usize, n: usize) -> [Vec<f32>; 2] {
    let first = row(random, kind, n);
    if random.below(2) == 0 || kind == 5 {
        return split(random, &first);
    }
    [first, row(random, kind, n)]
}

/// How a pair is written.
type Writer<'a> = fn(&mut Pairs<'a>, Call) -> io::Result<Option<f32>>;

/// Writes random rows of this length with this many pairs, each of them by `write`.
fn random_pair<'a>(
    list: &mut Pairs<'a>,
    random: &mut Random,
    (n, some): (usize, usize),
    write: Writer<'a>,
) -> io::Result<()> {
    let (k, step) = tight(random, n);
    let c = random.between(1.0, 190.0);
    let kind = random.below(2 * KINDS);
    let rows = match kind {
        0..KINDS => two(random, kind, n),
        KINDS => [0, 3].map(|kind| row(random, kind, n)),
        _ => {
            let values = hidden(random, n, k, step, c);
            split(random, &values)
        }
    };
    list.both([&rows[0], &rows[1]])?;
    let m = lesser(list.rows());
    for _ in 0..some {
        let mut call = random_call(random, &m);
        if kind > KINDS && random.below(2) == 0 {
            (call.k, call.step, call.c) = (k as u32, step as u32, c.min(call.c));
            nudge(random, &mut call, n);
        }
        if random.below(32) == 0 {
            spoilt(list, random, call, write)?;
        } else {
            write(list, call)?;
        }
    }
    Ok(())
}

/// Writes a pair with one entry that is refused, or with one row of another length.
fn spoilt<'a>(
    list: &mut Pairs<'a>,
    random: &mut Random,
    call: Call,
    write: Writer<'a>,
) -> io::Result<()> {
    let which = random.below(2);
    let row = list.rows()[which].to_vec();
    if random.below(2) == 0 {
        let at = random.below(row.len());
        list.more(which, at, &[random.pick(&REFUSED)])?;
        write(list, call)?;
        return list.more(which, at, &row[at..=at]);
    }
    let other = random.pick(&[0, 721, row.len() - 1, row.len() + 1]);
    list.resize(which, other)?;
    write(list, call)?;
    list.resize(which, row.len())
}

/// A random floor over a row of lesser values.
fn random_floor(random: &mut Random, m: &[f32]) -> f32 {
    match random.below(16) {
        0..5 => FLOOR,
        5..7 => 0.0,
        7 => random.between(0.0, 1.0) * random.pick(m),
        8 | 9 => random.pick(m),
        10 => {
            let v = random.pick(m);
            random.near(v)
        }
        11 => largest(m),
        12 => random.near(largest(m)),
        13 => random.between(0.0, 35.0),
        14 => random.between(0.0, 1.0) * largest(m),
        _ => random.between(35.0, 200.0),
    }
}

/// A random call over a row of lesser values, seldom one that is refused.
fn random_call(random: &mut Random, m: &[f32]) -> Call {
    let n = m.len();
    let (k, step) = tight(random, n);
    let mut call = Call {
        k: k as u32,
        step: step as u32,
        c: random_floor(random, m),
        room: at_random(random, n),
    };
    let apart = placing::step(k);
    match random.below(64) {
        0 => call.k = random.pick(&COUNTS),
        1 => call.c = random.pick(&REFUSED),
        2 => call.step = random.pick(&[0, n as u32 + 1, u32::MAX]),
        3 => call.room = random.below(n),
        4..32 if apart <= n => call.step = apart as u32,
        4..16 => call.step = random.below(n) as u32 + 1,
        16..32 => call.step = (n / (2 * k)).max(1) as u32,
        _ => {}
    }
    call
}
