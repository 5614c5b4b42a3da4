//! The gamut list, for `gamut_cases`: rows, entries, chromas found and lightnesses.
//!
//! The fixed list holds every row in the standard directions and some of their entries; rows refused
//! for each reason and for several, of which the lowest number is given; directions with one
//! component changed or at its edge; chromas at odd lightnesses and in odd directions; and rows in
//! other directions. `all` holds every entry and row of the table.

use crate::files::{Files, SEARCH_FILE};
use crate::lists::color::{COMPONENTS, ODD};
use crate::models::directions::Directed;
use crate::models::gamut::Lent;
use crate::random::{Random, SPECIAL};
use crate::standins::{DIRECTIONS, LEVELS};
use crate::words::float_step as step;
use std::io;

/// The level after the last one.
const BEYOND: u32 = LEVELS as u32;
/// Levels of which rows in other directions are filled.
const SOME_LEVELS: [u32; 6] = [0, 1, 42, 84, 126, BEYOND - 1];
/// Levels that are refused, some of which are taken where their high bits get lost.
const BAD_LEVELS: [u32; 7] = [BEYOND, 255, 256, 65535, 65536, 65536 + 3, u32::MAX];
/// Lengths of a row that are refused.
const BAD_SIZES: [usize; 5] = [0, 1, DIRECTIONS - 1, DIRECTIONS + 1, 800];

/// Begins a list of gamut cases.
fn begin(files: &mut Files) -> io::Result<Directed<'_>> {
    Directed::begin(files, "Gamut", SEARCH_FILE)
}

/// Writes the fixed list.
pub fn fixed(files: &mut Files) -> io::Result<()> {
    let mut list = begin(files)?;
    let mut random = Random(5);
    standard(&mut list, &mut random)?;
    refusals(&mut list)?;
    damaged(&mut list)?;
    odd_chromas(&mut list)?;
    chromas(&mut list, &mut random)?;
    lightnesses(&mut list, &mut random)?;
    other_directions(&mut list, &mut random)?;
    let own = ["size 321", "ent 0 2d0", "ent 10000 0", "lof 10000"];
    list.damaged(&own, DIRECTIONS, ("maxc", &[0; 3]))
}

/// Writes every entry in the standard directions, and every row.
pub fn all(files: &mut Files) -> io::Result<()> {
    let mut list = begin(files)?;
    for level in 0..BEYOND {
        list.row(level)?;
        for j in 0..DIRECTIONS {
            list.entry(level, j)?;
        }
    }
    Ok(())
}

/// Writes a random list of this many cases over all operations.
pub fn many(files: &mut Files, seed: u64, count: usize) -> io::Result<()> {
    let mut list = begin(files)?;
    let mut random = Random(seed);
    for _ in 0..count {
        match random.below(64) {
            0 => random_row(&mut list, &mut random)?,
            1..=4 => random_entry(&mut list, &mut random)?,
            5 => list.lightness(random.bits() as u16)?,
            _ => random_chroma(&mut list, &mut random)?,
        }
    }
    Ok(())
}

/// Writes every row in the standard directions, and some of their entries.
fn standard(list: &mut Directed, random: &mut Random) -> io::Result<()> {
    for level in 0..BEYOND {
        list.row(level)?;
    }
    for level in SOME_LEVELS {
        for j in [0, 1, 180, 360, 540, DIRECTIONS - 1] {
            list.entry(level, j)?;
        }
    }
    for _ in 0..464 {
        random_entry(list, random)?;
    }
    Ok(())
}

/// Writes rows that are refused for each reason and for several, the lowest of which is given.
fn refusals(list: &mut Directed) -> io::Result<()> {
    let (cut, full) = (DIRECTIONS - 1, DIRECTIONS);
    let nan = Some((0, 300, f32::NAN));
    let above = Some((1, 719, step(1.0, 1)));
    let directions = [
        (None, None),
        (None, Some((full, full))),
        (nan, None),
        (above, None),
        (None, Some((cut, full))),
        (None, Some((full, cut))),
        (None, Some((0, 0))),
        (nan, Some((1, full))),
    ];
    for level in [3, BEYOND - 1].into_iter().chain(BAD_LEVELS) {
        for size in [None, Some(full)].into_iter().chain(BAD_SIZES.map(Some)) {
            for (bad, lengths) in directions {
                // Other directions in rows of other lengths are tried at three levels only.
                let one = size.is_none() || (bad, lengths) == (None, None);
                if one || [3, BEYOND, u32::MAX].contains(&level) {
                    list.row_lent(level, Lent { bad, lengths, size })?;
                }
            }
        }
    }
    Ok(())
}

/// Writes rows with one component that is refused or on the edge.
fn damaged(list: &mut Directed) -> io::Result<()> {
    for which in [0, 1] {
        for j in [0, 1, 360, DIRECTIONS - 1] {
            for v in COMPONENTS {
                let bad = Some((which, j, v));
                list.row_lent(
                    84,
                    Lent {
                        bad,
                        ..Lent::default()
                    },
                )?;
            }
        }
    }
    // The changes above were for one line each.
    list.row(84)
}

/// Writes chromas at lightnesses and in directions that are no numbers, infinite or zero.
fn odd_chromas(list: &mut Directed) -> io::Result<()> {
    let odd = [ODD.as_slice(), &[0.5]].concat();
    for l in ODD.into_iter().chain([50.0]) {
        for cos in &odd {
            for sin in &odd {
                list.max_chroma(l, *cos, *sin)?;
            }
        }
    }
    for l in SPECIAL {
        for j in [0, 75, 333, 540] {
            list.max_chroma(l, list.cos[j], list.sin[j])?;
        }
    }
    Ok(())
}

/// Writes chromas in the natural ranges, in very long and short directions, and at any patterns.
fn chromas(list: &mut Directed, random: &mut Random) -> io::Result<()> {
    for l in [0.0, 12.0, 50.0, 96.0, 100.0] {
        for power in -20..20 {
            let scale = 2f32.powi(power);
            list.max_chroma(l, 0.6 * scale, -0.8 * scale)?;
        }
    }
    for _ in 0..500 {
        random_chroma(list, random)?;
    }
    for _ in 0..100 {
        let [l, cos, sin] = [(); 3].map(|()| f32::from_bits(random.bits()));
        list.max_chroma(l, cos, sin)?;
    }
    Ok(())
}

/// Writes the lightness of the first and last levels, at powers of two and at random.
fn lightnesses(list: &mut Directed, random: &mut Random) -> io::Result<()> {
    for level in [0, 1, 167, 168, 169, 170, 65534, 65535] {
        list.lightness(level)?;
    }
    for power in 1..16 {
        list.lightness(1 << power)?;
    }
    for _ in 0..77 {
        list.lightness(random.bits() as u16)?;
    }
    Ok(())
}

/// Writes rows in directions that are no unit vectors, zero, or at the ends of what is taken.
fn other_directions(list: &mut Directed, random: &mut Random) -> io::Result<()> {
    let (cos, sin) = (list.cos.clone(), list.sin.clone());
    some_rows(list, random, |j, _| (0.5 * cos[j], 0.5 * sin[j]))?;
    some_rows(list, random, |_, random| {
        (random.between(-1.0, 1.0), random.between(-1.0, 1.0))
    })?;
    some_rows(list, random, |j, _| {
        let scale = 2f32.powi(-(j as i32 % 30));
        (scale * cos[j], scale * sin[j])
    })?;
    some_rows(list, random, |_, _| (0.0, 0.0))?;
    let ends = [-1.0, 1.0, -0.0, 0.0, 1e-45];
    some_rows(list, random, |j, _| (ends[j % 5], ends[j / 5 % 5]))
}

/// Sets all directions, and writes some rows and entries in them.
fn some_rows(
    list: &mut Directed,
    random: &mut Random,
    direction: impl Fn(usize, &mut Random) -> (f32, f32),
) -> io::Result<()> {
    for j in 0..DIRECTIONS {
        let (cos, sin) = direction(j, random);
        list.direction(j, cos, sin)?;
    }
    for level in SOME_LEVELS {
        list.row(level)?;
    }
    for _ in 0..20 {
        random_entry(list, random)?;
    }
    Ok(())
}

/// Writes the entry of a random level and direction.
fn random_entry(list: &mut Directed, random: &mut Random) -> io::Result<()> {
    list.entry(random.below(LEVELS) as u32, random.below(DIRECTIONS))
}

/// Writes one random chroma: mostly in a direction of the list, else in any.
fn random_chroma(list: &mut Directed, random: &mut Random) -> io::Result<()> {
    let j = random.below(DIRECTIONS);
    let (cos, sin) = (list.cos[j], list.sin[j]);
    let l = random.between(0.0, 100.0);
    match random.below(8) {
        0 => {
            let [l, cos, sin] = random.triple([(-20.0, 120.0), (-1.0, 1.0), (-1.0, 1.0)]);
            list.max_chroma(l, cos, sin)
        }
        1 => {
            let l = random.mixed(0.0, 100.0);
            let cos = random.mixed(-1.0, 1.0);
            list.max_chroma(l, cos, random.mixed(-1.0, 1.0))
        }
        // Long directions need every halving, short ones few.
        2 | 3 => {
            let scale = 2f32.powi(random.below(80) as i32 - 40);
            list.max_chroma(l, scale * cos, scale * sin)
        }
        4 => list.max_chroma(random.near(l), random.near(cos), random.near(sin)),
        _ => list.max_chroma(l, cos, sin),
    }
}

/// Writes one random row, sometimes in other directions and sometimes one that is refused.
fn random_row(list: &mut Directed, random: &mut Random) -> io::Result<()> {
    for _ in 0..random.below(8) {
        let j = random.below(DIRECTIONS);
        let cos = random.between(-1.0, 1.0);
        list.direction(j, cos, random.between(-1.0, 1.0))?;
    }
    let level = match random.below(8) {
        0 => random.pick(&BAD_LEVELS),
        1 => random.bits(),
        _ => random.below(LEVELS) as u32,
    };
    let mut lent = Lent::default();
    if random.below(4) == 0 {
        let v = random.pick(&COMPONENTS);
        lent.bad = Some((random.below(2), random.below(DIRECTIONS), v));
    }
    if random.below(8) == 0 {
        let lengths = [0, 1, DIRECTIONS - 1, DIRECTIONS, DIRECTIONS];
        lent.lengths = Some((random.pick(&lengths), random.pick(&lengths)));
    }
    if random.below(8) == 0 {
        lent.size = Some(random.pick(&BAD_SIZES));
    }
    list.row_lent(level, lent)
}
