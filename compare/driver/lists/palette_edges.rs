//! Palettes at the edge of each finding.

use crate::color::{lch_to_srgb8_gamut_clipped, srgb8_to_lab, Srgb8};
use crate::models::palette::{Palettes, BLACK};
use crate::random::Random;
use crate::standins::DIRECTIONS;
use crate::validating as published;
use crate::words::float_step;
use std::io;

/// The greatest light of all.
pub const WHITE: Srgb8 = Srgb8::new(255, 255, 255);
/// The least chroma that a palette may have.
pub const FLOOR: f32 = 35.0;
/// The gap that a palette must have.
pub const GAP: f32 = 40.0;
/// Colours whose chroma is 35, the first, or at most 33 f32 below or above it.
const AT_FLOOR: [u32; 12] = [
    0x38bdca, 0x92d5a6, 0xcdc381, 0x58c1ae, 0xbc9e63, 0x485b21, 0x49c2be, 0x2bb5c3, 0x26b1ba,
    0x77bc90, 0xb4a4e3, 0xa3a8e8,
];

/// Writes palettes at the edges of the gap, the spread, the separation and the chroma.
pub fn all(list: &mut Palettes, random: &mut Random) -> io::Result<()> {
    greys(list)?;
    lightnesses(list, random)?;
    separations(list, random)?;
    chromas(list, random)
}

/// Writes, for every dark grey, the greatest light grey too near to it and the next.
fn greys(list: &mut Palettes) -> io::Result<()> {
    let grey = |v: u8| Srgb8::new(v, v, v);
    for dark in 0..=255 {
        let near = |light: &u8| list.finding(&[grey(dark), grey(*light)]) != 0;
        let Some(last) = (dark..255).rev().find(near) else {
            continue;
        };
        for light in [last, last + 1] {
            list.paint(&[grey(dark), grey(light)]);
            list.validate(1, 2)?;
        }
    }
    Ok(())
}

/// A value of a colour with the colour.
type Valued = (f32, Srgb8);

/// A random colour whose channels lie from one code up to another.
pub fn colour(random: &mut Random, from: usize, to: usize) -> Srgb8 {
    let code = |random: &mut Random| (from + random.below(to + 1 - from)) as u8;
    let (r, g) = (code(random), code(random));
    Srgb8::new(r, g, code(random))
}

/// The pairs of two lists whose values differ by nearly a bound: a few with the greatest
/// difference below it, and a few with the least that is not.
fn nearest(low: &[Valued], high: &[Valued], bound: f32, some: usize) -> Vec<[Srgb8; 2]> {
    let mut high = high.to_vec();
    high.sort_by(|a, b| a.0.total_cmp(&b.0));
    let (mut below, mut above) = (vec![], vec![]);
    for (v, c) in low {
        let at = high.partition_point(|(w, _)| w - v < bound);
        if let Some((w, d)) = high.get(at) {
            above.push((w - v, [*c, *d]));
        }
        if let Some((w, d)) = high[..at].last() {
            below.push((w - v, [*c, *d]));
        }
    }
    below.sort_by(|a, b| b.0.total_cmp(&a.0));
    above.sort_by(|a, b| a.0.total_cmp(&b.0));
    let some = |pairs: Vec<(f32, [Srgb8; 2])>| pairs.into_iter().take(some).map(|pair| pair.1);
    some(below).chain(some(above)).collect()
}

/// Writes palettes whose gap is 40 or the f32 next to it or nearly, and whose spread is so
/// at 12, in the dark and in the light level.
fn lightnesses(list: &mut Palettes, random: &mut Random) -> io::Result<()> {
    let mut valued = |from: usize, to: usize| -> Vec<Valued> {
        let some = (0..20_000).map(|_| colour(random, from, to));
        some.map(|c| (srgb8_to_lab(c).l, c)).collect()
    };
    let (darks, lights) = (valued(0, 130), valued(110, 255));
    for [dark, light] in nearest(&darks, &lights, GAP, 16) {
        list.paint(&[dark, light]);
        list.validate(1, 2)?;
    }
    for bound in [12.0, float_step(12.0, 1)] {
        for [a, b] in nearest(&darks, &darks, bound, 8) {
            list.paint(&[a, b, WHITE, WHITE]);
            list.validate(2, 4)?;
        }
        for [a, b] in nearest(&lights, &lights, bound, 8) {
            list.paint(&[BLACK, BLACK, b, a]);
            list.validate(2, 4)?;
        }
    }
    Ok(())
}

/// Random colours of chroma 36 or more whose lightness lies within 3 of this, by their hues.
fn alike(list: &Palettes, random: &mut Random, l: f32, some: usize) -> Vec<Valued> {
    let mut seen = vec![];
    while seen.len() < some {
        let color = colour(random, 0, 255);
        let lab = srgb8_to_lab(color);
        if (lab.l - l).abs() < 3.0 && lab.chroma() >= 36.0 {
            seen.push((hue(list, color), color));
        }
    }
    seen
}

/// The hue of a colour.
fn hue(list: &Palettes, color: Srgb8) -> f32 {
    let lab = srgb8_to_lab(color);
    let hue = lab.hue_deg(&list.list.cos, &list.list.sin);
    hue.expect("a hue")
}

/// So many hues of a lightness at chroma 20, this many degrees apart, from one of them on.
fn spaced(list: &Palettes, l: f32, first: f32, apart: f32, some: usize) -> Vec<Srgb8> {
    let one = |i: usize| {
        let j = ((first + i as f32 * apart) * 2.0) as usize % DIRECTIONS;
        let (cos, sin) = (list.list.cos[j], list.list.sin[j]);
        lch_to_srgb8_gamut_clipped(l, 20.0, cos, sin).0
    };
    (0..some).map(one).collect()
}

/// Writes palettes of every hue count from 2 on whose separation is 300 / k or the f32 next to
/// it or nearly: two hues are so far apart, and the others have the rest of the circle.
fn separations(list: &mut Palettes, random: &mut Random) -> io::Result<()> {
    let seen = alike(list, random, 31.0, 12_000);
    let light = &published::C4_COLORS[2..];
    for pair in nearest(&seen, &seen, 210.0, 8) {
        list.paint(&[&pair, light].concat());
        list.validate(2, 4)?;
    }
    for k in 2..=16 {
        let bound = 300.0 / k as f32;
        let apart = (360.0 - bound) / (k - 1) as f32;
        for pair in nearest(&seen, &seen, bound, 4) {
            let next = hue(list, pair[1]) + apart;
            let others = spaced(list, 31.0, next, apart, k - 2);
            let light = spaced(list, 75.0, 0.0, 360.0 / k as f32, k);
            list.paint(&[&pair, &others[..], &light].concat());
            list.validate(k as u32, 2 * k as u32)?;
        }
    }
    Ok(())
}

/// Writes palettes of two hues whose least chroma is 35 or a few f32 beside it.
fn chromas(list: &mut Palettes, random: &mut Random) -> io::Result<()> {
    for color in AT_FLOOR.map(Srgb8::from_hex) {
        let (lab, own) = (srgb8_to_lab(color), hue(list, color));
        let opposite = |other: &&Valued| (155.0..205.0).contains(&(other.0 - own).abs());
        let seen = alike(list, random, lab.l, 4_000);
        let beside = seen.iter().find(opposite).expect("an opposite hue").1;
        let is_light = lab.l > 50.0;
        let l = lab.l + if is_light { -44.0 } else { 44.0 };
        let clipped = |j: usize| {
            let (cos, sin) = (list.list.cos[j], list.list.sin[j]);
            lch_to_srgb8_gamut_clipped(l, 38.0, cos, sin).0
        };
        let mut pairs = [[color, beside], [272, 652].map(clipped)];
        if is_light {
            pairs.swap(0, 1);
        }
        let colors = pairs.concat();
        let finding = if lab.chroma() < FLOOR { 4 } else { 0 };
        assert!(list.finding(&colors) == finding, "not at the edge");
        list.paint(&colors);
        list.validate(2, 4)?;
    }
    Ok(())
}

/// The colour with one channel a step further, where there is one.
pub fn moved(c: Srgb8, channel: usize, up: bool) -> Option<Srgb8> {
    let mut codes = [c.r, c.g, c.b];
    let code = codes[channel];
    codes[channel] = if up {
        code.checked_add(1)?
    } else {
        code.checked_sub(1)?
    };
    Some(Srgb8::new(codes[0], codes[1], codes[2]))
}

/// Writes the palettes before and after each change of the finding, as one channel of one
/// colour goes up or down to its end.
pub fn varied(
    list: &mut Palettes,
    random: &mut Random,
    k: usize,
    mut colors: Vec<Srgb8>,
) -> io::Result<()> {
    let (at, channel, up) = (random.below(2 * k), random.below(3), random.below(2) == 0);
    let mut finding = list.finding(&colors);
    while let Some(next) = moved(colors[at], channel, up) {
        let before = colors.clone();
        colors[at] = next;
        let now = list.finding(&colors);
        if now != finding {
            list.paint(&before);
            list.validate(k as u32, 2 * k as u32)?;
            list.more(at, &[next]);
            list.validate(k as u32, 2 * k as u32)?;
        }
        finding = now;
    }
    Ok(())
}
