//! The palette list, for `palette_cases`: derivations, validations and back-offs.
//!
//! The fixed list holds the two printed palettes, which must come out as they are printed, else the
//! driver stops, and the two that are not derived; what the published `search` finds on the panel's
//! table at gap 40 for every hue count that has a palette; every set of the faults that a derivation, a
//! back-off or a validation can have; each argument at and beyond its ends, hue indices after the first
//! k and colours after the first 2k among them; direction slices of 0, 1, 719, 720 and 721 components,
//! and components at and beyond their ends; back-offs from 200, 55, 40, 35, the f32 next to it and
//! below, of designs that pass, that end with the gap, the separation or the chroma after as many as
//! 3,300 tries, and that are not tried at all; palettes of one colour, of black and white and of greys;
//! what `palette_edges` has at the edge of each finding; random palettes and designs of every hue count;
//! and both in directions of half the length and in random ones. No back-off ends with the spread: the
//! colours of a derived level have nearly one lightness.
//!
//! A random list has palettes of any colours, of dark and light ones, of greys, of evenly spaced hues as
//! they are and moved by one code, and of a few colours again and again; designs, many of them with
//! levels 40 apart and hues as near as may be, or printed ones moved a little, derived, validated and
//! backed off; and designs with one argument damaged or at its end.

use crate::color::{lch_to_srgb8_gamut_clipped, Srgb8};
use crate::files::Files;
use crate::lists::color::COMPONENTS;
use crate::lists::palette_edges::{self, colour, moved, varied, FLOOR, GAP, WHITE};
use crate::lists::placement::{COUNTS, EDGES, REFUSED};
use crate::models::job;
use crate::models::palette::{Design, Lent, Palettes, BLACK, COLORS};
use crate::models::table::panel;
use crate::placing;
use crate::random::Random;
use crate::standins::{DIRECTIONS, LEVELS};
use crate::validating as published;
use crate::words::float_step;
use std::io;

/// A middle grey.
const GREY: Srgb8 = Srgb8::new(128, 128, 128);
/// Hue counts that are refused, one of which is taken where its high bits get lost.
const BAD_COUNTS: [u32; 4] = [0, 17, u32::MAX, 257];
/// Level indices at the end and beyond; some are taken where their high bits get lost.
const LEVEL_ENDS: [u32; 9] = [0, 1, 167, 168, 169, 255, 256, 65539, u32::MAX];
/// Hue indices at the end and beyond.
const HUE_ENDS: [u16; 5] = [0, 719, 720, 721, 65535];
/// Lengths of direction slices, the one that is taken among them.
const LENGTHS: [usize; 5] = [DIRECTIONS, DIRECTIONS - 1, DIRECTIONS + 1, 0, 1];

/// Writes the fixed list.
pub fn fixed(files: &mut Files) -> io::Result<()> {
    let mut list = Palettes::begin(files)?;
    let mut random = Random(17);
    printed(&mut list)?;
    searched(&mut list, &mut random)?;
    design_faults(&mut list)?;
    palette_faults(&mut list)?;
    argument_ends(&mut list)?;
    count_ends(&mut list)?;
    lent_directions(&mut list)?;
    from_chromas(&mut list)?;
    plain(&mut list)?;
    palette_edges::all(&mut list, &mut random)?;
    for k in 1..=16 {
        for kind in 0..KINDS {
            random_palette(&mut list, &mut random, k, kind)?;
        }
        for _ in 0..if k <= 4 { 16 } else { 4 } {
            random_design(&mut list, &mut random, k as u32)?;
        }
        for _ in 0..4 {
            let colors = even(&mut list, &mut random, k);
            varied(&mut list, &mut random, k, colors)?;
        }
    }
    other_directions(&mut list, &mut random)?;
    list.end()?;
    let own = ["design 1 0 0 10000", "colors 1000000"];
    list.list
        .damaged(&own, DIRECTIONS + 1, ("validate", &[1, 2]))
}

/// Writes a random list of this many cases or a few more.
pub fn many(files: &mut Files, seed: u64, count: usize) -> io::Result<()> {
    let mut list = Palettes::begin(files)?;
    let mut random = Random(seed);
    let mut written = 0;
    while written < count {
        let most = random.pick(&[4, 16]);
        let k = random.below(most) + 1;
        written += match random.below(8) {
            0..4 => {
                let kind = random.below(KINDS);
                random_palette(&mut list, &mut random, k, kind)?
            }
            4..7 => random_design(&mut list, &mut random, k as u32)?,
            _ => damaged(&mut list, &mut random, k as u32)?,
        };
    }
    list.end()
}

/// A design with these hues.
pub fn design(levels: [u32; 2], hues: &[u16]) -> Design {
    let mut all = [0; 16];
    all[..hues.len()].copy_from_slice(hues);
    Design {
        k: hues.len() as u32,
        levels,
        hues: all,
    }
}

/// The design of a printed palette, by its lightnesses and its hues in degrees.
fn design_of(lightness: [f32; 2], degrees: &[f32]) -> Design {
    let hues: Vec<u16> = degrees.iter().map(|h| (h * 2.0) as u16).collect();
    design(lightness.map(|l| ((l - 12.0) * 2.0) as u32), &hues)
}

/// The designs of the two printed palettes.
pub fn printed_designs() -> [Design; 2] {
    use published::{C4_HUES, C4_L0, C4_L1, C8_HUES, C8_L0, C8_L1};
    [
        design_of([C4_L0, C4_L1], &C4_HUES),
        design_of([C8_L0, C8_L1], &C8_HUES),
    ]
}

/// Writes the printed palettes: derived, validated and backed off; and the two that are no
/// derived ones, validated.
fn printed(list: &mut Palettes) -> io::Result<()> {
    let [c4, c8] = printed_designs();
    let (cos, sin) = (list.list.cos.clone(), list.list.sin.clone());
    let derived = published::derive_c4(&cos, &sin);
    assert!(derived == published::C4_COLORS, "four other colours");
    let derived = published::derive_c3(&cos, &sin);
    assert!(derived == published::C8_COLORS, "eight other colours");
    list.plan(c4)?;
    list.derive(published::C4_CHROMA)?;
    assert!(list.colors()[..4] == published::C4_COLORS, "not as printed");
    list.validate(2, 4)?;
    list.back_off(published::C4_CHROMA)?;
    list.plan(c8)?;
    list.derive(published::C8_CHROMA)?;
    assert!(list.colors()[..8] == published::C8_COLORS, "not as printed");
    list.validate(4, 8)?;
    list.back_off(published::C8_CHROMA)?;
    list.paint(&published::SPEC_4_3_COLORS);
    list.validate(2, 4)?;
    list.paint(&published::M_COLORS);
    list.validate(1, 2)
}

/// Writes what the published search finds on the panel's table at gap 40 for every hue count
/// that has any: derived, validated, backed off, and with one channel changed.
fn searched(list: &mut Palettes, random: &mut Random) -> io::Result<()> {
    let table = panel(&list.list.cos, &list.list.sin);
    let mut found = 0;
    for k in 1..=16 {
        let job = job::search(k, GAP, &table, job::ROOM).expect("a search");
        let Some((chroma, dark, light)) = job.best else {
            continue;
        };
        found += 1;
        list.plan(Design {
            k,
            levels: [dark, light],
            hues: job.hues,
        })?;
        list.derive(chroma)?;
        list.validate(k, 2 * k)?;
        list.back_off(chroma)?;
        let colors = list.colors()[..2 * k as usize].to_vec();
        list.validate(k, 2 * k)?;
        for _ in 0..12 {
            varied(list, random, k as usize, colors.clone())?;
        }
    }
    assert!(found > 0, "no palette is found");
    Ok(())
}

/// A component that is refused, for a case with a fault in its directions.
fn bad_directions(turn: usize) -> Lent {
    let cut = [(719, 720), (720, 721), (0, 0), (720, 719)];
    match turn % 3 {
        0 => Lent {
            bad: None,
            lengths: Some(cut[turn / 3 % 4]),
        },
        _ => Lent {
            bad: Some((turn % 2, 719 - turn, float_step(1.0, 1))),
            lengths: None,
        },
    }
}

/// Writes derivations and back-offs with every set of the faults that one can have, of which
/// the lowest is given.
fn design_faults(list: &mut Palettes) -> io::Result<()> {
    let fine = design([40, 132], &[272, 652, 30]);
    for set in 0..64 {
        let turn = set / 32 + set % 32;
        let mut wrong = fine;
        let mut chroma = 36.0;
        if set & 1 != 0 {
            wrong.k = BAD_COUNTS[turn % 4];
        }
        if set & 2 != 0 {
            chroma = REFUSED[turn % 8];
        }
        if set & 8 != 0 {
            wrong.levels[turn % 2] = LEVEL_ENDS[4 + turn % 5];
        }
        if set & 16 != 0 {
            wrong.hues[turn % 3] = HUE_ENDS[2 + turn % 3];
        }
        list.plan(wrong)?;
        for case in [Palettes::derive, Palettes::back_off] {
            if set & 4 != 0 {
                list.lend(bad_directions(turn));
            }
            case(list, chroma)?;
        }
    }
    Ok(())
}

/// Writes validations with every set of the faults that one can have.
fn palette_faults(list: &mut Palettes) -> io::Result<()> {
    list.paint(&published::C4_COLORS);
    for set in 0..32 {
        let turn = set / 8 + set % 8;
        let k = if set & 1 != 0 {
            BAD_COUNTS[turn % 4]
        } else {
            2
        };
        if set & 2 != 0 {
            list.lend(bad_directions(turn));
        }
        let count = if set & 4 != 0 {
            [3, 5, 0, 32][turn % 4]
        } else {
            4
        };
        list.validate(k, count)?;
    }
    Ok(())
}

/// Writes derivations and back-offs with each argument at and beyond its ends.
fn argument_ends(list: &mut Palettes) -> io::Result<()> {
    let [c4, c8] = printed_designs();
    list.plan(c4)?;
    for chroma in REFUSED.into_iter().chain(EDGES) {
        list.derive(chroma)?;
        list.back_off(chroma)?;
    }
    for k in COUNTS {
        list.plan(Design { k, ..c8 })?;
        list.derive(40.0)?;
        list.back_off(36.0)?;
    }
    for level in LEVEL_ENDS {
        for levels in [[level, 132], [40, level], [level; 2]] {
            list.plan(Design { levels, ..c4 })?;
            list.derive(40.0)?;
            list.back_off(36.0)?;
        }
    }
    for at in [0, 1, 3, 4, 15] {
        for hue in HUE_ENDS {
            let mut hues = c8.hues;
            hues[at] = hue;
            list.plan(Design { hues, ..c8 })?;
            list.derive(40.0)?;
            list.back_off(36.0)?;
        }
    }
    let mut garbage = [65535; 16];
    for k in 1..=16 {
        garbage[k as usize - 1] = 45 * (k - 1) as u16;
        let hues = garbage;
        list.plan(Design { k, hues, ..c4 })?;
        list.derive(30.0)?;
        list.back_off(35.1)?;
    }
    Ok(())
}

/// Writes validations with every hue count and colour counts around twice that.
fn count_ends(list: &mut Palettes) -> io::Result<()> {
    let colors: Vec<Srgb8> = (0..32).map(|i| Srgb8::new(8 * i, 255 - 7 * i, i)).collect();
    list.paint(&colors);
    for k in (1..=16).chain(COUNTS).chain([1 << 31]) {
        let twice = k.wrapping_mul(2);
        for count in [twice, twice.wrapping_sub(1), twice.wrapping_add(1)] {
            list.validate(k, count)?;
        }
    }
    for k in [1, 2, 16] {
        for count in [0, 1, 31, 32, 33, 2 * k + 65536, u32::MAX] {
            list.validate(k, count)?;
        }
    }
    Ok(())
}

/// Writes every kind of case over directions that are refused or on the edge.
fn lent_directions(list: &mut Palettes) -> io::Result<()> {
    list.plan(printed_designs()[0])?;
    list.paint(&published::C4_COLORS);
    let mut lents = vec![];
    for c in LENGTHS {
        let lengths = LENGTHS.map(|s| Some((c, s)));
        lents.extend(lengths.map(|lengths| Lent { bad: None, lengths }));
    }
    for which in [0, 1] {
        for j in [0, 1, 272, 360, 652, 719] {
            let bad = COMPONENTS.map(|v| Some((which, j, v)));
            lents.extend(bad.map(|bad| Lent { bad, lengths: None }));
        }
    }
    for lent in lents {
        list.lend(lent);
        list.validate(2, 4)?;
        list.lend(lent);
        list.derive(55.0)?;
        list.lend(lent);
        list.back_off(35.5)?;
    }
    Ok(())
}

/// Writes back-offs from many chromas: of designs that pass, that end with the gap, the
/// separation or the chroma, and whose levels do not lie apart.
fn from_chromas(list: &mut Palettes) -> io::Result<()> {
    let designs = [
        printed_designs()[0],
        printed_designs()[1],
        design([60, 120], &[200]),
        design([40, 132], &[272, 500]),
        design([36, 124], &[400, 40]),
        design([100, 100], &[0]),
        design([168, 0], &[0, 360]),
    ];
    for design in designs {
        list.plan(design)?;
        for chroma in [200.0, 55.0, 40.0, FLOOR, 34.9, 0.0] {
            list.back_off(chroma)?;
        }
        for by in [-1, 1] {
            list.back_off(float_step(FLOOR, by))?;
        }
        // The last chroma tried is one f32 above 35, 35 itself, or more.
        for tries in [1, 2, 7, 20] {
            let mut chroma = FLOOR;
            for _ in 0..tries {
                chroma += 0.05;
            }
            for by in [-1, 0, 1] {
                list.back_off(float_step(chroma, by))?;
            }
        }
    }
    Ok(())
}

/// Writes palettes of one colour, of black and white, and of two greys, for every hue count.
fn plain(list: &mut Palettes) -> io::Result<()> {
    let pairs = [
        [BLACK; 2],
        [WHITE; 2],
        [BLACK, WHITE],
        [WHITE, BLACK],
        [GREY; 2],
        [Srgb8::new(70, 70, 70), Srgb8::new(200, 200, 200)],
        [published::C4_COLORS[0], published::C4_COLORS[2]],
    ];
    for k in 1..=16 {
        for [dark, light] in pairs {
            list.paint(&[vec![dark; k], vec![light; k]].concat());
            list.validate(k as u32, 2 * k as u32)?;
        }
    }
    Ok(())
}

/// The colours of evenly spaced hues at two levels, at a random chroma.
fn even(list: &mut Palettes, random: &mut Random, k: usize) -> Vec<Srgb8> {
    let first = random.below(DIRECTIONS);
    let dark = 12.0 + random.between(12.0, 30.0);
    let light = dark + random.between(40.0, 46.0);
    let chroma = random.between(25.0, 60.0);
    let mut colors = vec![];
    for l in [dark, light] {
        for i in 0..k {
            let j = (first + i * DIRECTIONS / k) % DIRECTIONS;
            let (cos, sin) = (list.list.cos[j], list.list.sin[j]);
            colors.push(lch_to_srgb8_gamut_clipped(l, chroma, cos, sin).0);
        }
    }
    colors
}

/// How many kinds of random palettes there are.
const KINDS: usize = 6;

/// The colours of a random palette: any, dark and light ones, greys, evenly spaced hues, the
/// same moved a little, or a few colours again and again.
fn random_colors(list: &mut Palettes, random: &mut Random, k: usize, kind: usize) -> Vec<Srgb8> {
    let two = |random: &mut Random, dark: [usize; 2], light: [usize; 2]| -> Vec<Srgb8> {
        let ends = |i: usize| if i < k { dark } else { light };
        let one = |i: usize| colour(random, ends(i)[0], ends(i)[1]);
        (0..2 * k).map(one).collect()
    };
    match kind {
        0 => two(random, [0, 255], [0, 255]),
        1 => two(random, [40, 110], [170, 250]),
        2 => {
            let some = two(random, [0, 90], [150, 255]);
            let grey = |c: &Srgb8| Srgb8::new(c.r, c.r, c.r);
            some.iter().map(grey).collect()
        }
        3 => even(list, random, k),
        4 => {
            let mut colors = even(list, random, k);
            for color in &mut colors {
                let (channel, up) = (random.below(3), random.below(2) == 0);
                *color = moved(*color, channel, up).unwrap_or(*color);
            }
            colors
        }
        _ => {
            let some = two(random, [20, 100], [120, 255]);
            (0..2 * k).map(|i| some[i % k.min(3)]).collect()
        }
    }
}

/// Writes a random palette of a kind, now and then with colours after its last, and says how
/// many cases that are.
fn random_palette(
    list: &mut Palettes,
    random: &mut Random,
    k: usize,
    kind: usize,
) -> io::Result<usize> {
    let colors = random_colors(list, random, k, kind);
    list.paint(&colors);
    if k < 16 && random.below(4) == 0 {
        let rest: Vec<Srgb8> = (2 * k..COLORS).map(|_| colour(random, 0, 255)).collect();
        let at = 2 * k + random.below(rest.len());
        let most = (COLORS - at).min(23);
        list.more(at, &rest[..most]);
    }
    list.validate(k as u32, 2 * k as u32)?;
    if random.below(16) > 0 {
        return Ok(1);
    }
    let other = random.pick(&[0, 2 * k - 1, 2 * k + 1, COLORS]);
    list.validate(k as u32, other as u32)?;
    Ok(2)
}

/// Random hues: evenly spaced, spaced as the search does or nearly as near as may be, or any;
/// after the first k zeros or any numbers.
fn random_hues(random: &mut Random, k: usize) -> [u16; 16] {
    let kind = random.below(4);
    let first = random.below(DIRECTIONS);
    let apart = match kind {
        0 => DIRECTIONS / k,
        1 => placing::step(k),
        2 => 600usize.div_ceil(k) + random.below(3),
        _ => 0,
    };
    let mut hues = [0; 16];
    let garbage = random.below(4) == 0;
    for (i, hue) in hues.iter_mut().enumerate() {
        *hue = match (i < k, kind) {
            (true, 3) => random.below(DIRECTIONS) as u16,
            (true, _) => ((first + i * apart) % DIRECTIONS) as u16,
            (false, _) if garbage => random.bits() as u16,
            (false, _) => 0,
        };
    }
    hues
}

/// Two random level indices, mostly 40 apart in lightness or a little more.
fn random_levels(random: &mut Random) -> [u32; 2] {
    let dark = random.below(88) as u32;
    let nearly = 78 + random.below(8) as u32;
    let light = dark + random.pick(&[80, 80, 81, nearly]);
    match random.below(8) {
        0 => [(); 2].map(|()| random.below(LEVELS) as u32),
        _ => [dark, light.min(LEVELS as u32 - 1)],
    }
}

/// A random design; for two and four hues often a printed one, moved a little.
fn any_design(random: &mut Random, k: u32) -> Design {
    let mut design = Design {
        k,
        levels: random_levels(random),
        hues: random_hues(random, k as usize),
    };
    let printed = printed_designs().into_iter().find(|printed| printed.k == k);
    if let Some(printed) = printed
        && random.below(4) > 0
    {
        let dark = printed.levels[0] - 6 + random.below(16) as u32;
        design.levels = [dark, dark + 80 + random.below(3) as u32];
        for (hue, to) in printed.hues.iter().zip(&mut design.hues).take(k as usize) {
            *to = (hue + random.below(9) as u16 + 716) % 720;
        }
    }
    design
}

/// A random chroma: one with a rule of its own, near 35, or any that takes not too many tries.
fn random_chroma(random: &mut Random, k: u32) -> f32 {
    let most = if k < 3 { 80.0 } else { 45.0 };
    match random.below(16) {
        0 => random.pick(&[0.0, 34.9, FLOOR, 35.05, 40.0]),
        1 => random.near(FLOOR),
        2 => random.between(0.0, FLOOR),
        3 => random.pick(&EDGES[..5]),
        _ => random.between(FLOOR, most),
    }
}

/// Writes a derivation of a random design with its validation, and a back-off, and says how
/// many cases those are.
fn random_design(list: &mut Palettes, random: &mut Random, k: u32) -> io::Result<usize> {
    let design = any_design(random, k);
    list.plan(design)?;
    let chroma = match random.below(4) {
        0 => random.between(0.0, 200.0),
        _ => random_chroma(random, k),
    };
    list.derive(chroma)?;
    list.validate(k, 2 * k)?;
    let chroma = random_chroma(random, k);
    list.back_off(chroma)?;
    Ok(3)
}

/// Writes a derivation, a back-off and a validation with one argument of a random design
/// damaged or at its end, and says how many cases those are.
fn damaged(list: &mut Palettes, random: &mut Random, k: u32) -> io::Result<usize> {
    let mut design = any_design(random, k);
    let mut chroma = random_chroma(random, k);
    let mut lent = Lent::default();
    match random.below(6) {
        0 => design.k = random.pick(&COUNTS),
        1 => chroma = random.pick(&REFUSED),
        2 => design.levels[random.below(2)] = random.pick(&LEVEL_ENDS),
        3 => design.hues[random.below(16)] = random.pick(&HUE_ENDS),
        4 => lent.lengths = Some((random.pick(&LENGTHS), random.pick(&LENGTHS))),
        _ => {
            let v = random.pick(&COMPONENTS);
            lent.bad = Some((random.below(2), random.below(DIRECTIONS), v));
        }
    }
    list.plan(design)?;
    list.lend(lent);
    list.derive(chroma)?;
    list.lend(lent);
    list.back_off(chroma)?;
    list.lend(lent);
    list.validate(design.k, 2 * k)?;
    Ok(3)
}

/// Writes cases in directions that are no unit vectors, and in random ones.
fn other_directions(list: &mut Palettes, random: &mut Random) -> io::Result<()> {
    for set in 0..2 {
        for j in 0..DIRECTIONS {
            let (cos, sin) = match set {
                0 => (0.5 * list.list.cos[j], 0.5 * list.list.sin[j]),
                _ => (random.between(-1.0, 1.0), random.between(-1.0, 1.0)),
            };
            list.list.direction(j, cos, sin)?;
        }
        for design in printed_designs() {
            list.plan(design)?;
            list.derive(100.0)?;
            list.back_off(80.0)?;
        }
        for k in [1, 2, 3, 4, 8, 16] {
            random_design(list, random, k)?;
            for kind in 0..KINDS {
                random_palette(list, random, k as usize, kind)?;
            }
        }
    }
    Ok(())
}
